//! JSON as a text that grows: commas, escapes and closing signs are seen to here.

use std::mem;

#[derive(Default)]
pub struct Writer {
    text: String,
    /// What is open, the outermost first.
    open: Vec<Open>,
    /// A name was written, and its value comes next.
    named: bool,
}

struct Open {
    close: char,
    /// Whether it has members already.
    begun: bool,
    /// Whether each member stands on a line of its own.
    lines: bool,
}

/// What can stand as a value.
pub trait Value {
    fn put(&self, text: &mut String);
}

impl Writer {
    /// What was written since this was last asked.
    pub fn take(&mut self) -> String {
        mem::take(&mut self.text)
    }

    pub fn object(&mut self) -> &mut Writer {
        self.open('{', '}')
    }

    pub fn list(&mut self) -> &mut Writer {
        self.open('[', ']')
    }

    /// Puts each member of what was opened last on a line of its own. A list's brackets stand apart from its items; an
    /// object's first and last members share their lines with its braces.
    pub fn lines(&mut self) -> &mut Writer {
        if let Some(open) = self.open.last_mut() {
            open.lines = true;
        }
        self
    }

    /// Closes what was opened last.
    pub fn close(&mut self) -> &mut Writer {
        if let Some(open) = self.open.pop() {
            if open.lines && open.close == ']' {
                self.text.push('\n');
            }
            self.text.push(open.close);
        }
        self
    }

    /// The name of the value that comes next.
    pub fn name(&mut self, name: &str) -> &mut Writer {
        self.next();
        name.put(&mut self.text);
        self.text.push(':');
        self.named = true;
        self
    }

    pub fn value(&mut self, value: impl Value) -> &mut Writer {
        self.next();
        value.put(&mut self.text);
        self
    }

    pub fn null(&mut self) -> &mut Writer {
        self.value(None::<bool>)
    }

    /// A name and its value.
    pub fn field(&mut self, name: &str, value: impl Value) -> &mut Writer {
        self.name(name).value(value)
    }

    fn open(&mut self, open: char, close: char) -> &mut Writer {
        self.next();
        self.text.push(open);
        self.open.push(Open { close, begun: false, lines: false });
        self
    }

    /// What stands before a member; a value has its name before it.
    fn next(&mut self) {
        if mem::take(&mut self.named) {
            return;
        }
        if let Some(open) = self.open.last_mut() {
            let begun = mem::replace(&mut open.begun, true);
            if begun {
                self.text.push(',');
            }
            if open.lines && (begun || open.close == ']') {
                self.text.push('\n');
            }
        }
    }
}

impl<V: Value + ?Sized> Value for &V {
    fn put(&self, text: &mut String) {
        (**self).put(text)
    }
}

impl<V: Value> Value for Option<V> {
    fn put(&self, text: &mut String) {
        match self {
            Some(value) => value.put(text),
            None => text.push_str("null"),
        }
    }
}

impl Value for bool {
    fn put(&self, text: &mut String) {
        text.push_str(if *self { "true" } else { "false" })
    }
}

impl Value for u64 {
    fn put(&self, text: &mut String) {
        text.push_str(&self.to_string())
    }
}

impl Value for f64 {
    /// The shortest decimal that reads back to the same bits. JSON has no other numbers than finite ones.
    fn put(&self, text: &mut String) {
        if self.is_finite() {
            text.push_str(&format!("{:?}", self));
        } else {
            text.push_str("null");
        }
    }
}

impl Value for str {
    /// In quotes, of printable ASCII and other letters; the rest is escaped.
    fn put(&self, text: &mut String) {
        text.push('"');
        for c in self.chars() {
            match c {
                '"' | '\\' => text.extend(['\\', c]),
                // all of them are below 2^16
                c if c.is_control() => text.push_str(&format!("\\u{:04x}", u32::from(c))),
                c => text.push(c),
            }
        }
        text.push('"');
    }
}

#[cfg(test)]
mod tests {
    use super::*;

    fn put(value: impl Value) -> String {
        Writer::default().value(value).take()
    }

    #[test]
    fn texts_are_escaped() {
        assert_eq!(put("a\"b\\c\n\u{7f}\u{9f}é"), "\"a\\\"b\\\\c\\u000a\\u007f\\u009fé\"");
    }

    #[test]
    fn doubles_read_back_to_the_same_bits() {
        for value in [1.0 + f64::EPSILON, 5e-324, f64::MAX, 1e-8, 0.1, 2f64.powi(53), -0.0] {
            assert_eq!(put(value).parse::<f64>().map(f64::to_bits), Ok(value.to_bits()));
        }
        assert_eq!(put(f64::NAN) + &put(f64::INFINITY) + &put(None::<f64>), "nullnullnull");
    }

    #[test]
    fn members_are_parted_and_closed() {
        let mut json = Writer::default();
        json.object().field("a", 1).name("b").list().value(true).object().close().list().close();
        assert_eq!(json.take(), "{\"a\":1,\"b\":[true,{},[]");
        json.close().field("c\"", "x").close();
        assert_eq!(json.take(), "],\"c\\\"\":\"x\"}");
    }

    #[test]
    fn members_stand_on_lines_where_asked() {
        let mut json = Writer::default();
        json.object().lines().name("a").list().lines().value(1).value(2).close();
        json.name("b").object().field("c", 3).field("d", 4).close().close();
        assert_eq!(json.take(), "{\"a\":[\n1,\n2\n],\n\"b\":{\"c\":3,\"d\":4}}");
    }
}
