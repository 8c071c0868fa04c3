//! Samples of one or two bytes, and the casts from them that the published files make.

pub trait Pixel: Copy {
    fn word(self) -> u16;
}

impl Pixel for u8 {
    fn word(self) -> u16 {
        u16::from(self)
    }
}

impl Pixel for u16 {
    fn word(self) -> u16 {
        self
    }
}

pub trait CastFromPrimitive<T> {
    fn cast_from(v: T) -> Self;
}

impl<T: Pixel> CastFromPrimitive<T> for i16 {
    fn cast_from(v: T) -> i16 {
        v.word() as i16
    }
}

impl<T: Pixel> CastFromPrimitive<T> for i32 {
    fn cast_from(v: T) -> i32 {
        i32::from(v.word())
    }
}

impl<T: Pixel> CastFromPrimitive<T> for u32 {
    fn cast_from(v: T) -> u32 {
        u32::from(v.word())
    }
}
