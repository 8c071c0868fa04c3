//! A figure of scores as reports print it.

use crate::writer;
use fuavelino::Decibels;

#[derive(Clone, Copy, Debug, PartialEq)]
pub enum Value {
    Double(f64),
    Whole(u64),
    Truth(bool),
    /// PSNR in hundredths of a decibel.
    Psnr(Decibels),
    /// Not asked for, or not a number that can be told.
    None,
}

impl Value {
    pub fn double(value: Option<f64>) -> Value {
        value.map_or(Value::None, Value::Double)
    }

    pub fn psnr(value: Option<Decibels>) -> Value {
        value.map_or(Value::None, Value::Psnr)
    }

    /// As a cell of CSV.
    pub fn cell(&self) -> String {
        match self {
            // the shortest decimal that reads back to the same bits
            Value::Double(value) => format!("{:?}", value),
            Value::Whole(value) => value.to_string(),
            Value::Truth(value) => value.to_string(),
            Value::Psnr(told) => told.hundredths().to_string(),
            Value::None => String::new(),
        }
    }

    /// As messages say it: PSNR in decibels.
    pub fn said(&self) -> String {
        match self {
            Value::Psnr(told) => told.to_string(),
            Value::None => "not given".to_string(),
            _ => self.cell(),
        }
    }
}

impl writer::Value for Value {
    fn put(&self, text: &mut String) {
        match self {
            Value::Double(value) => value.put(text),
            Value::Whole(value) => value.put(text),
            Value::Truth(value) => value.put(text),
            Value::Psnr(told) => u64::from(told.hundredths()).put(text),
            Value::None => None::<u64>.put(text),
        }
    }
}
