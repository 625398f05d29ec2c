//! The paper, part five: the work buffer after a stream (docs/REQUIREMENT.md, section 5).
//! Opening a value writes its frame whole, and all that is written there later is about that value. So in the end a frame tells of the last
//! value that opened on its level: those of its keys and values that were finished before the record's first fault. The bytes before
//! the fault are read a second time, and each frame is drawn at once, from what the value has.

use crate::book::{Book, Form, Kind, RULES, STATES};
use crate::number::Written;
use crate::plant::{on, Plant};
use crate::run::{fits, reached};
use crate::stream::{Part, Verdict};
use crate::text::{string_at, Value};

pub const FRAME: usize = 96;
pub const FRAMES: usize = 64;

/// As many frames as are whole in a buffer of this length, up to 64.
pub fn count(length: usize) -> usize {
    let length = if on(Plant::RoundUp) { length + FRAME - 1 } else { length };
    (length / FRAME).min(if on(Plant::ManyFrames) { usize::MAX } else { FRAMES })
}

/// A value that was opened: its finished keys and values. Of inner objects and arrays only the form is kept, and the rules that accept them.
pub struct Opened {
    pub object: bool,
    pub keys: Vec<Vec<u8>>,
    pub values: Vec<Value>,
    pub fitted: Vec<u32>,
}

/// What judges values: a book, or any bytes that are lent as a table.
pub trait Rules {
    /// The rules that have an accepting run over a value, where those over each inner value are known: bit n for rule n.
    fn accepting(&self, value: &Value, fitted: &[u32]) -> u32;

    /// The 96 bytes of the frame of a value that was opened.
    fn frame(&self, opened: &Opened) -> [u8; FRAME];
}

impl Rules for Book {
    fn accepting(&self, value: &Value, fitted: &[u32]) -> u32 {
        crate::run::accepting(self, value, fitted)
    }

    fn frame(&self, opened: &Opened) -> [u8; FRAME] {
        drawn(self, opened)
    }
}

/// The bytes of a record before its first fault. What the grammar asks of them is known to hold, and is not asked again.
struct Sound<'a, R> {
    rules: &'a R,
    bytes: &'a [u8],
    at: usize,
    /// The last value opened on each level, level 1 first.
    last: Vec<Opened>,
    /// Set by planted faults only: a number at the end of the bytes is finished.
    late: bool,
}

/// Writes the frames of a part with this verdict. The head is unread.
pub fn draw<R: Rules>(rules: &R, part: &Part, verdict: Verdict, work: &mut [u8]) {
    let end = match verdict {
        Verdict::Refused(15, _) if !on(Plant::HeadFrames) => 0,
        Verdict::Refused(13, _) if on(Plant::LongFrames) => part.bytes.len(),
        Verdict::Refused(11..=13, place) => place.min(part.bytes.len()),
        _ => part.bytes.len(),
    };
    let late = match verdict {
        Verdict::Refused(11, _) => on(Plant::NumberAtFault),
        Verdict::Refused(13, _) => on(Plant::NumberAtLong),
        _ => on(Plant::NumberAtRs),
    };
    let mut sound = Sound { rules, bytes: &part.bytes[..end], at: 0, last: Vec::new(), late };
    sound.gap();
    sound.value(0);
    if on(Plant::RsClears) {
        work.iter_mut().take(FRAME).for_each(|byte| *byte = 0);
    }
    let most = if on(Plant::LastFrame) { FRAMES - 1 } else { usize::MAX };
    for (opened, frame) in sound.last.iter().zip(work.chunks_exact_mut(FRAME)).take(most) {
        let kept = if on(Plant::RestKept) { 3..16 } else { 0..0 };
        let foreign = frame[kept.clone()].to_vec();
        frame.copy_from_slice(&rules.frame(opened));
        frame[kept].copy_from_slice(&foreign);
    }
}

impl<R: Rules> Sound<'_, R> {
    fn peek(&self) -> Option<u8> {
        self.bytes.get(self.at).copied()
    }

    /// Passes blanks, commas and colons.
    fn gap(&mut self) {
        while matches!(self.peek(), Some(b' ' | b'\t' | b'\n' | b'\r' | b',' | b':')) {
            self.at += 1;
        }
    }

    /// A finished value that begins here, inside the value of level `level`, and the rules that accept it.
    fn value(&mut self, level: usize) -> Option<(Value, u32)> {
        match self.peek()? {
            b'{' => self.inner(level, true),
            b'[' => self.inner(level, false),
            b'"' => self.string().map(|_| (Value::Str, 0)),
            b'n' => self.word(4, Value::Null),
            b't' => self.word(4, Value::True),
            b'f' => self.word(5, Value::False),
            _ => self.number(),
        }
    }

    fn string(&mut self) -> Option<Vec<u8>> {
        let (string, behind) = string_at(self.bytes, self.at)?;
        self.at = behind;
        Some(string)
    }

    /// Finished with its last letter.
    fn word(&mut self, length: usize, value: Value) -> Option<(Value, u32)> {
        self.at += length;
        (self.at + usize::from(on(Plant::WordLater)) <= self.bytes.len()).then_some((value, 0))
    }

    /// Finished by the byte after it, so never by the end of the bytes.
    fn number(&mut self) -> Option<(Value, u32)> {
        let rest = &self.bytes[self.at..];
        let behind = rest.iter().position(|byte| !b"+-.0123456789eE".contains(byte));
        let number = &rest[..behind.or(self.late.then_some(rest.len()))?];
        self.at += number.len();
        (!number.is_empty()).then(|| (Value::Num { whole: Written::new(number).whole() }, 0))
    }

    /// An object or array that opens here, as the last one of its level; none where it does not close.
    fn inner(&mut self, level: usize, object: bool) -> Option<(Value, u32)> {
        self.at += 1;
        self.last.truncate(if on(Plant::DeeperLost) { level } else { usize::MAX });
        let opened = Opened { object, keys: Vec::new(), values: Vec::new(), fitted: Vec::new() };
        if level < self.last.len() { self.last[level] = opened } else { self.last.push(opened) }
        loop {
            self.gap();
            if matches!(self.peek()?, b']' | b'}') {
                self.at += 1;
                return Some(self.closed(level));
            }
            if object {
                let key = self.string()?;
                self.last[level].keys.push(key);
                self.gap();
            }
            let (value, fitted) = self.value(level + 1)?;
            self.last[level].values.push(value);
            self.last[level].fitted.push(fitted);
        }
    }

    /// What a closed value is for its parent: an object or array, and the rules with an accepting run over it.
    fn closed(&mut self, level: usize) -> (Value, u32) {
        let number = self.bytes[self.at - 2].is_ascii_digit();
        let own = &mut self.last[level];
        let mut values = own.values.clone();
        values.truncate(if on(Plant::NumberAfter) && number { values.len() - 1 } else { values.len() });
        let count = values.len();
        let value = match own.object {
            true => Value::Obj(own.keys.iter().cloned().zip(values.drain(..)).collect()),
            false => Value::Arr(values),
        };
        let fitted = self.rules.accepting(&value, &own.fitted[..count]);
        if on(Plant::CloseWrites) {
            own.values.clear();
        }
        let form = if own.object { Value::Obj(Vec::new()) } else { Value::Arr(Vec::new()) };
        (form, fitted)
    }
}

/// Sets a bit, counted from the lowest of the first byte.
fn set(bytes: &mut [u8], bit: usize) {
    bytes[bit / 8] |= if on(Plant::HighBitFirst) { 128 >> (bit % 8) } else { 1 << (bit % 8) };
}

/// The 96 bytes of a frame.
fn drawn(book: &Book, opened: &Opened) -> [u8; FRAME] {
    let mut frame = [0; FRAME];
    if opened.object {
        frame[0] = 1;
        keys(book, opened, &mut frame);
        edges(book, opened, &mut frame[32..]);
    } else {
        frame[0] = 2;
        frame[1] = if on(Plant::ArrayKey) { 255 } else { 0 };
        states(book, opened, &mut frame[32..]);
    }
    frame
}

/// The last key by its number, the mark of an unknown or repeated one, and a bit for each of the book's keys that came up.
fn keys(book: &Book, opened: &Opened, frame: &mut [u8; FRAME]) {
    let repeated = |i: usize| opened.keys[..i].contains(&opened.keys[i]);
    frame[1] = if on(Plant::FreshKey) { 0 } else { 255 };
    for (i, key) in opened.keys.iter().enumerate() {
        let number = book.key(key);
        match number {
            Some(_) if repeated(i) && on(Plant::RepeatedKey) => frame[1] = 255,
            Some(number) => frame[1] = number as u8,
            None if on(Plant::UnknownKept) => {}
            None => frame[1] = 255,
        }
        frame[2] |= u8::from(number.is_none() && !on(Plant::UnknownUnmarked) || repeated(i) && !on(Plant::RepeatUnmarked));
        if let Some(number) = number.filter(|&number| number < 64 || !on(Plant::HighKeyBits)) {
            set(&mut frame[16..32], number);
        }
    }
    if on(Plant::KeyGoes) && opened.keys.len() == opened.values.len() {
        frame[1] = 255;
    }
}

/// A bit for each edge that some finished value of its key fits.
fn edges(book: &Book, opened: &Opened, bits: &mut [u8]) {
    let first = if on(Plant::LastValueEdges) { opened.values.len().saturating_sub(1) } else { 0 };
    for (i, (value, &fitted)) in opened.values.iter().zip(&opened.fitted).enumerate().skip(first) {
        if book.key(&opened.keys[i]).is_none() || on(Plant::RepeatNoEdges) && opened.keys[..i].contains(&opened.keys[i]) {
            continue;
        }
        for (number, edge) in book.numbered() {
            let any = on(Plant::ReferenceFits) && matches!((edge.kind, value), (Kind::Rule(_), Value::Obj(_)));
            let taken = edge.key == opened.keys[i] && (any || fits(edge.kind, value, fitted));
            if taken && !(on(Plant::RootEdges) && edge.rule != 0) && !(on(Plant::HighEdgeBits) && number > 255) {
                set(bits, number);
            }
        }
    }
}

/// A bit for each state that the finished elements lead to, in every `arr` rule.
fn states(book: &Book, opened: &Opened, bits: &mut [u8]) {
    for rule in 0..RULES {
        if book.forms[rule] != Some(Form::Arr) && !(on(Plant::EveryRule) && opened.values.is_empty()) {
            continue;
        }
        let first = if on(Plant::StatesAdded) { 0 } else { opened.values.len() };
        for length in first..=opened.values.len() {
            for state in reached(book, rule, &opened.values[..length], &opened.fitted[..length]) {
                set(bits, STATES * rule + state);
            }
        }
    }
}
