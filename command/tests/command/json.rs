//! A small reader of JSON: it takes what the grammar allows, and nothing else.

#[derive(Debug, Clone, PartialEq)]
pub enum Json {
    Null,
    Truth(bool),
    Number(f64),
    Text(String),
    List(Vec<Json>),
    Object(Vec<(String, Json)>),
}

impl Json {
    pub fn read(text: &str) -> Json {
        let mut reader = Reader { bytes: text.as_bytes(), at: 0 };
        let value = reader.value();
        reader.space();
        assert_eq!(reader.at, text.len(), "something follows the value");
        value
    }

    /// What stands under a name.
    pub fn at(&self, name: &str) -> &Json {
        match self {
            Json::Object(pairs) => {
                let mut found = pairs.iter().filter(|pair| pair.0 == name);
                let value = &found.next().unwrap_or_else(|| panic!("no {:?} in {:?}", name, self)).1;
                assert!(found.next().is_none(), "{:?} stands twice", name);
                value
            }
            _ => panic!("{:?} is no object", self),
        }
    }

    pub fn list(&self) -> &[Json] {
        match self {
            Json::List(list) => list,
            _ => panic!("{:?} is no list", self),
        }
    }

    pub fn names(&self) -> Vec<&str> {
        match self {
            Json::Object(pairs) => pairs.iter().map(|pair| &pair.0[..]).collect(),
            _ => panic!("{:?} is no object", self),
        }
    }

    pub fn number(&self) -> f64 {
        match self {
            Json::Number(value) => *value,
            _ => panic!("{:?} is no number", self),
        }
    }

    pub fn text(&self) -> &str {
        match self {
            Json::Text(value) => value,
            _ => panic!("{:?} is no text", self),
        }
    }
}

struct Reader<'a> {
    bytes: &'a [u8],
    at: usize,
}

impl Reader<'_> {
    fn ahead(&self) -> u8 {
        *self.bytes.get(self.at).expect("the text ends early")
    }

    fn space(&mut self) {
        while self.bytes.get(self.at).map_or(false, |byte| b" \n\r\t".contains(byte)) {
            self.at += 1;
        }
    }

    fn take(&mut self, word: &str) {
        let here = &self.bytes[self.at..];
        assert!(here.starts_with(word.as_bytes()), "no {:?} at {}", word, self.at);
        self.at += word.len();
    }

    fn value(&mut self) -> Json {
        self.space();
        match self.ahead() {
            b'n' => self.word("null", Json::Null),
            b't' => self.word("true", Json::Truth(true)),
            b'f' => self.word("false", Json::Truth(false)),
            b'"' => Json::Text(self.string()),
            b'[' => {
                let mut list = Vec::new();
                self.items(b'[', b']', |reader| list.push(reader.value()));
                Json::List(list)
            }
            b'{' => {
                let mut pairs = Vec::new();
                self.items(b'{', b'}', |reader| {
                    let name = reader.string();
                    reader.space();
                    reader.take(":");
                    pairs.push((name, reader.value()));
                });
                Json::Object(pairs)
            }
            _ => self.double(),
        }
    }

    fn word(&mut self, word: &str, value: Json) -> Json {
        self.take(word);
        value
    }

    /// Items with commas between them, and none after the last.
    fn items(&mut self, open: u8, close: u8, mut item: impl FnMut(&mut Self)) {
        assert_eq!(self.ahead(), open);
        self.at += 1;
        self.space();
        while self.ahead() != close {
            item(self);
            self.space();
            if self.ahead() != close {
                self.take(",");
                self.space();
                assert_ne!(self.ahead(), close, "a comma before the end");
            }
        }
        self.at += 1;
    }

    fn string(&mut self) -> String {
        self.take("\"");
        let mut units = Vec::new();
        loop {
            let rest = std::str::from_utf8(&self.bytes[self.at..]).expect("UTF-8");
            let c = rest.chars().next().expect("the text ends early");
            self.at += c.len_utf8();
            match c {
                '"' => return String::from_utf16(&units).expect("UTF-16"),
                '\\' => units.push(self.escaped()),
                c => {
                    assert!(c >= ' ', "a control character in a text");
                    units.extend(c.encode_utf16(&mut [0; 2]).iter());
                }
            }
        }
    }

    fn escaped(&mut self) -> u16 {
        let byte = self.ahead();
        self.at += 1;
        match byte {
            b'"' | b'\\' | b'/' => u16::from(byte),
            b'u' => {
                let digits = std::str::from_utf8(&self.bytes[self.at..self.at + 4]).expect("four digits");
                self.at += 4;
                u16::from_str_radix(digits, 16).expect("four digits")
            }
            _ => panic!("an escape {:?}", byte as char),
        }
    }

    /// Signs, digits, one point and one exponent, as JSON has them: no leading zeros, no bare point.
    fn double(&mut self) -> Json {
        let start = self.at;
        let digits = |reader: &mut Self| {
            let from = reader.at;
            while reader.bytes.get(reader.at).map_or(false, u8::is_ascii_digit) {
                reader.at += 1;
            }
            assert!(reader.at > from, "no digit at {}", from);
            reader.at - from
        };
        if self.ahead() == b'-' {
            self.at += 1;
        }
        let zero = self.ahead() == b'0';
        assert!(digits(self) == 1 || !zero, "a leading zero at {}", start);
        if self.bytes.get(self.at) == Some(&b'.') {
            self.at += 1;
            digits(self);
        }
        if self.bytes.get(self.at).map_or(false, |byte| b"eE".contains(byte)) {
            self.at += 1;
            self.at += usize::from(b"+-".contains(&self.ahead()));
            digits(self);
        }
        let text = std::str::from_utf8(&self.bytes[start..self.at]).unwrap();
        Json::Number(text.parse().expect("a number"))
    }
}

#[test]
fn the_reader_takes_json_and_nothing_else() {
    let read = Json::read(" {\"a\" : [1, -2.5e-3, true, null], \"b\":\"x\\u000a\\\"\"} ");
    assert_eq!(read.at("a").list()[1], Json::Number(-0.0025));
    assert_eq!(read.at("b").text(), "x\n\"");
    for wrong in
        ["", "{", "[1,]", "{\"a\":1,}", "01", "1.", ".5", "+1", "nan", "NaN", "inf", "[1 2]", "\"\n\"", "1 2", "{1:2}"]
    {
        let taken = std::panic::catch_unwind(|| Json::read(wrong));
        assert!(taken.is_err(), "took {:?}", wrong);
    }
}
