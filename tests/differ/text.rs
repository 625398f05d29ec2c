//! The paper, part two: one JSON text by recursive descent (docs/REQUIREMENT.md, section 2; RFC 8259, RFC 3629).
//! A fault lies at the first byte that no text can have there: the descent stops at exactly that byte.

use crate::number::Written;
use crate::plant::{on, Plant};

#[derive(Clone)]
pub enum Value {
    Null,
    True,
    False,
    Str,
    Num { whole: bool },
    Arr(Vec<Value>),
    Obj(Vec<(Vec<u8>, Value)>),
}

/// Why there is no whole text: a fault place (11), an opening byte too deep (12), or the bytes end too early (14).
#[derive(Clone, Copy)]
pub enum Stop { Fault(usize), Deep(usize), End }

type Step<T> = Result<T, Stop>;

struct Text<'a> {
    bytes: &'a [u8],
    at: usize,
    level: usize,
    levels: usize,
    /// The numbers so far, each by its bytes.
    numbers: Vec<&'a [u8]>,
    /// Set by planted faults only: some number was not whole.
    unwhole: bool,
}

/// The string that begins at `at`, and the place after it; none where it does not end.
pub fn string_at(bytes: &[u8], at: usize) -> Option<(Vec<u8>, usize)> {
    let mut text = Text::new(bytes, at, 0);
    text.string().ok().map(|string| (string, text.at))
}

/// Blanks, one value, blanks, with at most so many levels.
pub fn whole(bytes: &[u8], levels: usize) -> Step<Value> {
    Text::new(bytes, 0, levels).whole()
}

/// The numbers of a whole text, each by its bytes; none of other bytes.
pub fn numbers(bytes: &[u8], levels: usize) -> Vec<&[u8]> {
    let mut text = Text::new(bytes, 0, levels);
    if text.whole().is_ok() { text.numbers } else { Vec::new() }
}

impl<'a> Text<'a> {
    fn new(bytes: &'a [u8], at: usize, levels: usize) -> Text<'a> {
        Text { bytes, at, level: 0, levels, numbers: Vec::new(), unwhole: false }
    }

    fn whole(&mut self) -> Step<Value> {
        if on(Plant::ByteOrderMark) && self.bytes.starts_with(b"\xEF\xBB\xBF") {
            self.at = 3;
        }
        if !on(Plant::NoFirstBlanks) {
            self.blanks();
        }
        let value = self.value()?;
        self.blanks();
        if self.at < self.bytes.len() { self.fault() } else { Ok(value) }
    }

    fn peek(&self) -> Option<u8> {
        self.bytes.get(self.at).copied()
    }

    fn need(&self) -> Step<u8> {
        self.peek().ok_or(Stop::End)
    }

    fn fault<T>(&self) -> Step<T> {
        if on(Plant::DeepFirst) && self.level == self.levels && matches!(self.peek(), Some(b'[' | b'{')) {
            return Err(Stop::Deep(self.at));
        }
        Err(Stop::Fault(self.at))
    }

    /// Takes one byte from `low` to `high`.
    fn range(&mut self, low: u8, high: u8) -> Step<u8> {
        let byte = self.need()?;
        if byte < low || high < byte {
            return self.fault();
        }
        self.at += 1;
        Ok(byte)
    }

    fn blanks(&mut self) {
        while matches!(self.peek(), Some(b' ' | b'\t' | b'\n' | b'\r'))
            || on(Plant::FormFeed) && self.peek() == Some(0x0C)
        {
            self.at += 1;
        }
    }

    fn value(&mut self) -> Step<Value> {
        match self.need()? {
            b'n' => self.word(b"null", Value::Null),
            b't' => self.word(b"true", Value::True),
            b'f' => self.word(b"false", Value::False),
            b'"' => self.string().map(|_| Value::Str),
            b'-' | b'0'..=b'9' => self.number(),
            b'[' if on(Plant::LastLevel) && self.level + 1 == self.levels => self.array().map(|_| Value::Null),
            b'[' => self.array(),
            b'{' => self.object(),
            _ => self.fault(),
        }
    }

    fn word(&mut self, word: &[u8], value: Value) -> Step<Value> {
        for &letter in word {
            if on(Plant::WordPlace) && self.need()? != letter {
                return Err(Stop::Fault(self.at + 1));
            }
            self.range(letter, letter)?;
        }
        Ok(value)
    }

    fn number(&mut self) -> Step<Value> {
        let start = self.at;
        self.pass_number()?;
        let number = &self.bytes[start..self.at];
        self.numbers.push(number);
        let whole = Written::new(number).whole() && !(on(Plant::NumberKept) && self.unwhole);
        self.unwhole |= !whole;
        Ok(Value::Num { whole })
    }

    /// RFC 8259, 6: minus, an integer part without leading zero, fraction, exponent.
    fn pass_number(&mut self) -> Step<()> {
        if self.peek() == Some(b'-') {
            self.at += 1;
        }
        if on(Plant::MinusAlone) && !matches!(self.peek(), Some(b'0'..=b'9')) {
            return Ok(());
        }
        if self.need()? == b'0' && !on(Plant::LeadingZero) {
            self.at += 1;
        } else {
            self.range(if on(Plant::LeadingZero) { b'0' } else { b'1' }, b'9')?;
            self.digits();
        }
        if self.peek() == Some(b'.') {
            self.at += 1;
            if !on(Plant::BareFraction) {
                self.range(b'0', b'9')?;
            }
            self.digits();
        }
        if matches!(self.peek(), Some(b'e' | b'E')) {
            self.at += 1;
            if matches!(self.peek(), Some(b'+' | b'-')) {
                self.at += 1;
            }
            self.range(b'0', b'9')?;
            self.digits();
        }
        if on(Plant::NumberAtEnd) {
            self.need()?;
        }
        Ok(())
    }

    fn digits(&mut self) {
        while matches!(self.peek(), Some(b'0'..=b'9')) {
            self.at += 1;
        }
    }

    /// A string's bytes after its escapes are resolved (keys are compared after that).
    fn string(&mut self) -> Step<Vec<u8>> {
        let mut text = Vec::new();
        self.at += 1;
        let start = self.at;
        loop {
            match self.need()? {
                b'"' => break,
                b'\\' => self.escape(&mut text)?,
                0x7F if on(Plant::DelRefused) => return self.fault(),
                byte @ 0x20..=0x7F => {
                    text.push(byte);
                    self.at += 1;
                }
                0x1F if on(Plant::ControlText) => self.at += 1,
                _ => self.many(&mut text)?,
            }
        }
        self.at += 1;
        if on(Plant::RawKeys) {
            text = self.bytes[start..self.at - 1].to_vec();
        }
        if on(Plant::KeyCutAt32) {
            text.truncate(32);
        }
        if on(Plant::KeyCutAtNul) {
            text.truncate(text.iter().position(|&b| b == 0).unwrap_or(text.len()));
        }
        Ok(text)
    }

    /// RFC 3629, 4: a character of two to four bytes; the second byte's bounds hang on the first.
    fn many(&mut self, text: &mut Vec<u8>) -> Step<()> {
        let (low, high, behind) = match self.need()? {
            0xC1 if on(Plant::LeadC1) => (0x80, 0xBF, 0),
            0xC2..=0xDF => (0x80, 0xBF, 0),
            0xE0 => (if on(Plant::LongE0) { 0x80 } else { 0xA0 }, 0xBF, 1),
            0xE1..=0xEC => (0x80, 0xBF, 1),
            0xED => (0x80, if on(Plant::SurrogateBytes) { 0xBF } else { 0x9F }, 1),
            0xEE..=0xEF => (0x80, 0xBF, 1),
            0xF0 => (if on(Plant::LongF0) { 0x80 } else { 0x90 }, 0xBF, 2),
            0xF1..=0xF3 => (0x80, 0xBF, 2),
            0xF4 => (0x80, if on(Plant::HighF4) { 0xBF } else { 0x8F }, 2),
            _ => return self.fault(),
        };
        let start = self.at;
        self.at += 1;
        self.range(low, high)?;
        for _ in 0..behind {
            self.range(0x80, 0xBF)?;
        }
        text.extend_from_slice(&self.bytes[start..self.at]);
        Ok(())
    }

    fn escape(&mut self, text: &mut Vec<u8>) -> Step<()> {
        self.at += 1;
        let byte = match self.need()? {
            byte @ (b'"' | b'\\' | b'/') => byte,
            b'b' => 8,
            b'f' => 12,
            b'n' => 10,
            b'r' => 13,
            b't' => 9,
            b'u' => return self.unicode(text),
            _ => return self.fault(),
        };
        self.at += 1;
        text.push(byte);
        Ok(())
    }

    /// An escaped surrogate stands only as a high one followed by an escaped low one.
    fn unicode(&mut self, text: &mut Vec<u8>) -> Step<()> {
        self.at += 1;
        let first = self.hex(0, 15)?;
        let second = self.hex(0, if first == 13 && !on(Plant::LowSurrogate) { 11 } else { 15 })?;
        let mut code = first << 12 | second << 8 | self.hex(0, 15)? << 4 | self.hex(0, 15)?;
        if (0xD800..0xDC00).contains(&code) && !on(Plant::HighSurrogate) {
            self.range(b'\\', b'\\')?;
            self.range(b'u', b'u')?;
            self.hex(13, 13)?;
            let low = self.hex(12, 15)? << 8 | self.hex(0, 15)? << 4 | self.hex(0, 15)?;
            code = 0x10000 + ((code - 0xD800) << 10) + (low - 0xC00);
        }
        let letter = char::from_u32(code).unwrap_or('\u{FFFD}');
        text.extend_from_slice(letter.encode_utf8(&mut [0; 4]).as_bytes());
        Ok(())
    }

    /// Takes a hexadecimal digit of worth `low` to `high`.
    fn hex(&mut self, low: u32, high: u32) -> Step<u32> {
        match (self.need()? as char).to_digit(16) {
            Some(worth) if low <= worth && worth <= high => {
                self.at += 1;
                Ok(worth)
            }
            _ => self.fault(),
        }
    }

    /// Takes an opening byte that the grammar allows here; 12 where there is no level left.
    fn open(&mut self) -> Step<()> {
        if self.level == self.levels + usize::from(on(Plant::LevelMore)) - usize::from(on(Plant::LevelLess)) {
            return Err(Stop::Deep(self.at));
        }
        self.level += 1;
        self.at += 1;
        self.blanks();
        Ok(())
    }

    /// Takes the closing byte if it stands here.
    fn closed(&mut self, close: u8) -> Step<bool> {
        let here = self.need()? == close;
        if here {
            self.at += 1;
            self.level -= 1;
        }
        Ok(here)
    }

    fn comma(&mut self) -> Step<()> {
        self.range(b',', b',')?;
        self.blanks();
        Ok(())
    }

    fn array(&mut self) -> Step<Value> {
        let mut list = Vec::new();
        self.open()?;
        if self.closed(b']')? {
            return Ok(Value::Arr(list));
        }
        loop {
            list.push(self.value()?);
            self.blanks();
            if self.closed(b']')? {
                return Ok(Value::Arr(list));
            }
            self.comma()?;
            if on(Plant::TrailingComma) && self.closed(b']')? {
                return Ok(Value::Arr(list));
            }
        }
    }

    fn object(&mut self) -> Step<Value> {
        let mut pairs = Vec::new();
        self.open()?;
        if self.closed(b'}')? {
            return Ok(Value::Obj(pairs));
        }
        loop {
            if self.need()? != b'"' {
                return self.fault();
            }
            let key = self.string()?;
            self.blanks();
            self.range(b':', b':')?;
            self.blanks();
            let value = self.value()?;
            pairs.push((key, value));
            self.blanks();
            if self.closed(b'}')? {
                return Ok(Value::Obj(pairs));
            }
            self.comma()?;
        }
    }
}
