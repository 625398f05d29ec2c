//! The paper, part seven: the bytes of a table, and what they mean whatever they are (docs/LIMITS.md, "The numbers of a table").

use crate::book::{Book, Form, Kind, RULES, STATES};
use crate::frames::{Opened, Rules, FRAME};
use crate::plant::{on, Plant};
use crate::rng::Rng;
use crate::text::Value;

pub const TABLE: usize = 7920;
const EDGES: usize = 512;
const KEYS: usize = 128;
const KEY_ROOM: usize = 32;

/// Where each number of edge e, key k or rule r stands; the counts of edges and keys are the first three bytes.
const RULE: usize = 16;
const STATE: usize = 528;
const KEY: usize = 1040;
const KIND: usize = 1552;
const NEXT: usize = 2064;
const LINE_LOW: usize = 2576;
const LINE_HIGH: usize = 3088;
const KEY_BYTES: usize = 3600;
const KEY_LENGTH: usize = 7696;
const ENDS: usize = 7824;
const FORMS: usize = 7888;

/// A set of states, each at 16 r + q.
type States = Vec<bool>;

/// Bytes that are lent as a table.
pub struct Flat<'a>(pub &'a [u8]);

impl Flat<'_> {
    /// True where start refuses the table with 23.
    pub fn above_limit(&self) -> bool {
        let edges = EDGES + usize::from(on(Plant::TableEdges));
        let keys = KEYS + usize::from(on(Plant::TableKeys));
        self.edges() > edges || self.keys() > keys
    }

    fn at(&self, place: usize) -> usize {
        usize::from(self.0[place])
    }

    fn edges(&self) -> usize {
        self.at(0) + 256 * self.at(1)
    }

    fn keys(&self) -> usize {
        self.at(2)
    }

    /// The number of a text's key: the first that has its bytes. Longer keys and those with other characters than ASCII are none.
    fn key(&self, key: &[u8]) -> Option<usize> {
        let known = key.len() <= KEY_ROOM && key.is_ascii();
        (0..self.keys()).find(|&k| known && self.key_bytes(k) == key)
    }

    /// As many bytes as the length says, up to the end of all keys' bytes.
    fn key_bytes(&self, k: usize) -> &[u8] {
        let all = &self.0[KEY_BYTES..KEY_LENGTH];
        let length = self.at(KEY_LENGTH + k).min(if on(Plant::TableLength) { KEY_ROOM } else { all.len() });
        let from = KEY_ROOM * k;
        &all[from..(from + length).min(all.len())]
    }

    /// The value fits the kind of edge e: codes 0 to 5 are the plain kinds, 6 + N is rule N, and a code above fits nothing.
    fn fits(&self, e: usize, value: &Value, fitted: u32) -> bool {
        match self.at(KIND + e) {
            0 => matches!(value, Value::Null),
            1 => matches!(value, Value::True),
            2 => matches!(value, Value::False),
            3 => matches!(value, Value::Str),
            4 => matches!(value, Value::Num { .. }),
            5 => matches!(value, Value::Num { whole: true }),
            code @ 6..=37 => fitted >> (code - 6) & 1 == 1,
            code => on(Plant::TableKind) && fitted >> ((code - 6) % RULES) & 1 == 1,
        }
    }

    /// The number of a state of edge e's rule, wherever that number falls.
    fn state(&self, field: usize, e: usize) -> usize {
        let (rule, state) = (self.at(RULE + e), self.at(field + e));
        let rule = if on(Plant::TableRule) { rule % RULES } else { rule };
        let state = if on(Plant::TableState) { state % STATES } else { state };
        STATES * rule + state
    }

    /// A rule above 31 has no form.
    fn has_form(&self, rule: usize, form: usize) -> bool {
        let found = if rule < RULES { self.at(FORMS + rule) } else { 0 };
        found == form || on(Plant::TableForm) && found > 2 && form == 2
    }

    /// State 0 of every rule of a form.
    fn start(&self, form: usize) -> States {
        (0..RULES * STATES).map(|i| i % STATES == 0 && self.has_form(i / STATES, form)).collect()
    }

    /// The states that edges with a property lead to; a number past the last state is none.
    fn led(&self, mut taken: impl FnMut(usize) -> bool) -> States {
        let mut states = vec![false; RULES * STATES];
        for e in (0..self.edges().min(EDGES)).filter(|&e| taken(e)) {
            if let Some(state) = states.get_mut(self.state(NEXT, e)) {
                *state = true;
            }
        }
        states
    }

    fn in_states(&self, states: &States, e: usize) -> bool {
        states.get(self.state(STATE, e)) == Some(&true)
    }

    /// An array's states after its finished elements.
    fn array(&self, values: &[Value], fitted: &[u32]) -> States {
        values.iter().zip(fitted).fold(self.start(2), |states, (value, &fitted)| {
            self.led(|e| self.fits(e, value, fitted) && self.has_form(self.at(RULE + e), 2) && self.in_states(&states, e))
        })
    }

    /// An object's fitting edges: those of each finished value's key whose kind it fits.
    fn fitting(&self, keys: &[Vec<u8>], values: &[Value], fitted: &[u32]) -> Vec<bool> {
        let mut edges = vec![false; EDGES];
        for ((key, value), &fitted) in keys.iter().zip(values).zip(fitted) {
            let number = self.key(key).or(on(Plant::TableNoKey).then_some(KEYS));
            for e in 0..self.edges().min(EDGES) {
                edges[e] |= number == Some(self.at(KEY + e)) && self.fits(e, value, fitted);
            }
        }
        edges
    }

    /// Some key is unknown or repeated.
    fn marked(&self, keys: &[Vec<u8>]) -> bool {
        keys.iter().enumerate().any(|(i, key)| self.key(key).is_none() || keys[..i].contains(key))
    }

    /// The rules of a form with an end state among the states.
    fn ended(&self, states: &States, form: usize) -> u32 {
        let end = |i: usize| self.at(ENDS + i / 8) >> (i % 8) & 1 == 1;
        let accepts = |rule: usize| self.has_form(rule, form) && (STATES * rule..STATES * (rule + 1)).any(|i| states[i] && end(i));
        (0..RULES).filter(|&rule| accepts(rule)).fold(0, |set, rule| set | 1 << rule)
    }

    /// The walk over an object's keys, ascending, all of them used.
    fn object(&self, keys: &[Vec<u8>], values: &[Value], fitted: &[u32]) -> u32 {
        if self.marked(keys) {
            return 0;
        }
        let fitting = self.fitting(keys, values, fitted);
        let mut numbers: Vec<usize> = keys.iter().filter_map(|key| self.key(key)).collect();
        numbers.sort_unstable();
        let states = numbers.iter().fold(self.start(1), |states, &number| {
            self.led(|e| self.at(KEY + e) == number && fitting[e] && self.in_states(&states, e))
        });
        self.ended(&states, 1)
    }
}

impl Rules for Flat<'_> {
    fn accepting(&self, value: &Value, fitted: &[u32]) -> u32 {
        match value {
            Value::Arr(list) => self.ended(&self.array(list, fitted), 2),
            Value::Obj(pairs) => {
                let (keys, values): (Vec<_>, Vec<_>) = pairs.iter().cloned().unzip();
                self.object(&keys, &values, fitted)
            }
            _ => 0,
        }
    }

    fn frame(&self, opened: &Opened) -> [u8; FRAME] {
        let mut frame = [0; FRAME];
        let mut set = |bit: usize| frame[bit / 8] |= 1 << (bit % 8);
        if !opened.object {
            let states = self.array(&opened.values, &opened.fitted);
            (0..states.len()).filter(|&i| states[i]).for_each(|i| set(256 + i));
            frame[0] = 2;
            return frame;
        }
        opened.keys.iter().filter_map(|key| self.key(key)).for_each(|number| set(128 + number));
        let fitting = self.fitting(&opened.keys, &opened.values, &opened.fitted);
        (0..EDGES).filter(|&e| fitting[e]).for_each(|e| set(256 + e));
        frame[0] = 1;
        frame[1] = opened.keys.last().and_then(|key| self.key(key)).map_or(255, |number| number as u8);
        frame[2] = self.marked(&opened.keys).into();
        frame
    }
}

/// The table of a book; all bytes 0 where it is refused.
pub fn of_book(book: Option<&Book>) -> Vec<u8> {
    let mut table = vec![0; TABLE];
    let Some(book) = book else { return table };
    let edges = book.numbered().count();
    table[0] = (edges % 256) as u8;
    table[1] = (edges / 256) as u8;
    table[2] = book.keys.len() as u8;
    for (e, edge) in book.numbered() {
        let kind = match edge.kind {
            Kind::Null => 0,
            Kind::True => 1,
            Kind::False => 2,
            Kind::Str => 3,
            Kind::Num => 4,
            Kind::Int => 5,
            Kind::Rule(rule) => 6 + rule,
        };
        let key = book.key(&edge.key).unwrap_or(KEYS);
        let numbers = [(RULE, edge.rule), (STATE, edge.state), (KEY, key), (KIND, kind), (NEXT, edge.next)];
        for (start, number) in numbers.into_iter().chain([(LINE_LOW, edge.line % 256), (LINE_HIGH, edge.line / 256)]) {
            table[start + e] = number as u8;
        }
    }
    for (k, key) in book.keys.iter().enumerate() {
        table[KEY_BYTES + KEY_ROOM * k..][..key.len()].copy_from_slice(key);
        table[KEY_LENGTH + k] = key.len() as u8;
    }
    for rule in 0..RULES {
        table[FORMS + rule] = match book.forms[rule] {
            None => 0,
            Some(Form::Obj) => 1,
            Some(Form::Arr) => 2,
        };
        for state in (0..STATES).filter(|&state| book.ends[rule][state]) {
            let bit = STATES * rule + state;
            table[ENDS + bit / 8] |= 1 << (bit % 8);
        }
    }
    table
}

/// Bytes of a table to change, each with its new value: mostly numbers that count, and values around what load writes.
pub fn changes(rng: &mut Rng, table: &[u8]) -> Vec<(usize, u8)> {
    let flat = Flat(table);
    let (edges, keys) = (flat.edges().max(1), flat.keys().max(1));
    let count = *rng.pick(&[0, 1, 1, 1, 2, 2, 3, 5, 12, 60]);
    let mut list = Vec::new();
    for _ in 0..count {
        let any = rng.next() as u8;
        let edge = if rng.chance(90) { rng.below(edges) } else { rng.below(EDGES) };
        list.push(match rng.below(12) {
            0 => (rng.below(3), *rng.pick(&[0, 1, 2, 3, 127, 128, 129, 255, any, table[0].wrapping_add(1)])),
            1 => (RULE + edge, *rng.pick(&[0, 1, 2, 31, 32, any, table[RULE + edge].wrapping_add(32)])),
            2 | 3 => (STATE + edge, *rng.pick(&[0, 1, 2, 15, 16, any, table[STATE + edge].wrapping_add(16)])),
            4 => (KEY + edge, *rng.pick(&[0, 1, 2, 127, 128, 129, 255, any])),
            5 | 6 => (KIND + edge, *rng.pick(&[0, 3, 4, 5, 6, 7, 37, 38, 39, 70, any])),
            7 => (NEXT + edge, *rng.pick(&[0, 1, 2, 15, 16, any, table[NEXT + edge].wrapping_add(16)])),
            8 => (KEY_LENGTH + rng.below(keys), *rng.pick(&[0, 1, 2, 31, 32, 33, 34, 64, 255, any])),
            9 => (ENDS + rng.below(2 * RULES), *rng.pick(&[0, 1, 255, any])),
            10 => (FORMS + rng.below(RULES), *rng.pick(&[0, 1, 2, 3, 255, any])),
            _ => (rng.below(TABLE), any),
        });
    }
    list
}
