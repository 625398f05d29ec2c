//! The paper, part one: load of a rule book (docs/REQUIREMENT.md, section 3).

use crate::plant::{on, Plant};
use std::collections::HashSet;

pub const NAMES: &[u8] = b"rule form state key value next\n";
pub const RULES: usize = 32;
pub const STATES: usize = 16;

#[derive(Clone, Copy, PartialEq, Eq, Debug)]
pub enum Form { Obj, Arr }

#[derive(Clone, Copy, PartialEq, Eq, Debug)]
pub enum Kind { Null, True, False, Str, Num, Int, Rule(usize) }

#[derive(Clone, Debug)]
pub struct Edge {
    pub rule: usize,
    pub state: usize,
    /// Empty in an `arr` rule.
    pub key: Vec<u8>,
    pub kind: Kind,
    pub next: usize,
    pub line: usize,
}

pub struct Book {
    pub forms: [Option<Form>; RULES],
    pub ends: [[bool; STATES]; RULES],
    pub keys: Vec<Vec<u8>>,
    edges: Vec<Edge>,
    /// The edges of state s of rule r, at 16 r + s.
    by_state: Vec<Vec<Edge>>,
}

/// A refusal: number and line.
pub type Refusal = (u32, usize);

/// A line's six fields, read but not yet held against the limits of refusal 4.
struct Line {
    rule: u64,
    form: Form,
    state: u64,
    key: Vec<u8>,
    /// None in an end line: value kind, the N of rN (else 0), next.
    edge: Option<(Kind, u64, u64)>,
}

impl Book {
    pub fn edges(&self, rule: usize, state: usize) -> &[Edge] {
        &self.by_state[STATES * rule + state]
    }

    /// The number of a key; none where the book does not have it.
    pub fn key(&self, key: &[u8]) -> Option<usize> {
        self.keys.iter().position(|k| k == key)
    }

    /// Every edge with its number.
    pub fn numbered(&self) -> impl Iterator<Item = (usize, &Edge)> {
        self.edges.iter().enumerate()
    }

    fn key_number(&self, key: &[u8]) -> usize {
        self.key(key).expect("a key of the book")
    }
}

/// Load: refusals 1 and 2, then line by line 3, 4, 6, 7, 5, then 8 and 9.
pub fn load(bytes: &[u8]) -> Result<Book, Refusal> {
    let most = if on(Plant::BookSize) { 65_535 } else { 65_536 };
    if bytes.is_empty() || bytes.len() > most {
        return Err((1, 0));
    }
    if !bytes.starts_with(NAMES) {
        return Err((2, 1));
    }
    let mut book = Book {
        forms: [None; RULES],
        ends: [[false; STATES]; RULES],
        keys: Vec::new(),
        edges: Vec::new(),
        by_state: vec![Vec::new(); RULES * STATES],
    };
    let mut earlier = HashSet::new();
    let mut rest = &bytes[NAMES.len()..];
    let mut number = 1;
    while !rest.is_empty() {
        number += 1;
        let end = rest.iter().position(|&b| b == b'\n');
        if end.is_none() && !on(Plant::LastLf) {
            return Err((3, number));
        }
        let (line, after) = rest.split_at(end.unwrap_or(rest.len()));
        take_line(&mut book, &mut earlier, line, number).map_err(|refusal| (refusal, number))?;
        rest = after.get(1..).unwrap_or(&[]);
    }
    if on(Plant::KeysFirst) {
        ascending_keys(&book)?;
    }
    named_rules(&book)?;
    ascending_keys(&book)?;
    for (number, edge) in book.edges.iter().enumerate() {
        if !lost(&book, number, edge) {
            book.by_state[STATES * edge.rule + edge.state].push(edge.clone());
        }
    }
    Ok(book)
}

/// True for the edges that a planted fault loses.
fn lost(book: &Book, number: usize, edge: &Edge) -> bool {
    on(Plant::HighEdges) && number > 255
        || on(Plant::HighKeys) && !edge.key.is_empty() && book.key_number(&edge.key) > 63
        || on(Plant::HighRules) && edge.rule > 15
        || on(Plant::LastState) && edge.next == 15
}

/// One line: 3 malformed, 4 above a limit, 6 form changed, 7 repeated, 5 an edge or key too many.
fn take_line<'a>(book: &mut Book, earlier: &mut HashSet<&'a [u8]>, text: &'a [u8], number: usize) -> Result<(), u32> {
    if on(Plant::LimitFirst) && text.split(|&b| b == b' ').next().and_then(digits).is_some_and(|rule| rule > 31) {
        return Err(4);
    }
    let line = fields(text).ok_or(3u32)?;
    let (reference, next) = line.edge.map_or((0, 0), |(_, n, next)| (n, next));
    if line.rule > 31 || line.state > 15 || next > 15 || reference > 31 {
        return Err(4);
    }
    let (rule, state) = (line.rule as usize, line.state as usize);
    if book.forms[rule].is_some_and(|form| form != line.form) && !on(Plant::FormChange) {
        return Err(6);
    }
    if on(Plant::LineBefore) {
        earlier.retain(|line| line.as_ptr_range().end as usize + 1 == text.as_ptr() as usize);
    }
    let repeated = !earlier.insert(text);
    book.forms[rule] = Some(line.form);
    let (new_key, full) = room(book, &line, number);
    if repeated && !(on(Plant::CountBeforeRepeat) && full) {
        return Err(7);
    }
    if full {
        return Err(5);
    }
    if new_key {
        book.keys.push(line.key.clone());
    }
    match line.edge {
        None => book.ends[rule][state] = true,
        Some((kind, _, next)) => {
            book.edges.push(Edge { rule, state, key: line.key, kind, next: next as usize, line: number });
        }
    }
    Ok(())
}

/// Whether the line has a new key, and whether it is an edge too many or has a key too many: at most 512 and 128.
fn room(book: &Book, line: &Line, number: usize) -> (bool, bool) {
    let new_key = !line.key.is_empty() && !book.keys.contains(&line.key);
    let most_edges = if on(Plant::Edges513) { 513 } else { 512 };
    let most_keys = if on(Plant::Keys129) { 129 } else { 128 };
    let edges = if on(Plant::EndsCounted) { number - 2 } else { book.edges.len() };
    (new_key, line.edge.is_some() && (edges == most_edges || new_key && book.keys.len() == most_keys))
}

/// The six fields of a well formed line; none where the line is malformed (refusal 3).
fn fields(text: &[u8]) -> Option<Line> {
    let list: Vec<&[u8]> = text.split(|&b| b == b' ').collect();
    let [rule, form, state, key, value, next] = list[..] else { return None };
    if list.iter().any(|field| field.is_empty() || field.iter().any(|b| !(0x21..=0x7E).contains(b))) {
        return None;
    }
    let form = match form {
        b"obj" => Form::Obj,
        b"arr" => Form::Arr,
        _ => return None,
    };
    let (rule, state) = (digits(rule)?, digits(state)?);
    if value == b"end" {
        return (key == b"-" && next == b"-").then(|| Line { rule, form, state, key: Vec::new(), edge: None });
    }
    let (kind, reference) = kind(value)?;
    let next = digits(next)?;
    let most = if on(Plant::Key33) { 33 } else { 32 };
    if (form == Form::Arr) != (key == b"-") || key.len() > most {
        return None;
    }
    let key = if form == Form::Arr { Vec::new() } else { key.to_vec() };
    Some(Line { rule, form, state, key, edge: Some((kind, reference, next)) })
}

fn kind(value: &[u8]) -> Option<(Kind, u64)> {
    let plain = match value {
        b"null" => Kind::Null,
        b"true" => Kind::True,
        b"false" => Kind::False,
        b"str" => Kind::Str,
        b"num" => Kind::Num,
        b"int" => Kind::Int,
        [b'r', number @ ..] => {
            let n = digits(number)?;
            return Some((Kind::Rule(n as usize), n));
        }
        _ => return None,
    };
    Some((plain, 0))
}

/// A number without leading zero; a very long one stays above every limit.
fn digits(field: &[u8]) -> Option<u64> {
    if field.is_empty() || !field.iter().all(u8::is_ascii_digit) {
        return None;
    }
    if field[0] == b'0' && field.len() > 1 && !on(Plant::ZeroInFront) {
        return None;
    }
    let wrap = on(Plant::NumberWraps);
    let step = |n: u64, d: &u8| (10 * n + u64::from(d - b'0')).min(1 << 50) & if wrap { 0xFFFF_FFFF } else { u64::MAX };
    Some(field.iter().fold(0, step))
}

/// Refusal 8: a reference to a rule without lines, or else no rule 0.
fn named_rules(book: &Book) -> Result<(), Refusal> {
    if on(Plant::RootFirst) && book.forms[0].is_none() {
        return Err((8, 0));
    }
    let mut missing = book.edges.iter().filter(|edge| matches!(edge.kind, Kind::Rule(n) if book.forms[n].is_none()));
    match if on(Plant::LastReference) { missing.last() } else { missing.next() } {
        Some(edge) => Err((8, edge.line)),
        None if book.forms[0].is_none() => Err((8, 0)),
        None => Ok(()),
    }
}

/// Refusal 9: where one edge's next is another's state, or its own, the first key number must be below the second.
fn ascending_keys(book: &Book) -> Result<(), Refusal> {
    let mut smallest: Option<usize> = None;
    let numbers: Vec<usize> =
        book.edges.iter().map(|e| if e.key.is_empty() { 0 } else { book.key_number(&e.key) }).collect();
    for (i, first) in book.edges.iter().enumerate() {
        for (j, second) in book.edges.iter().enumerate() {
            let meets = (first.rule == second.rule || on(Plant::RulesMixed)) && first.next == second.state;
            let rising = if on(Plant::KeysByBytes) { first.key < second.key } else { numbers[i] < numbers[j] };
            if !meets || book.forms[first.rule] != Some(Form::Obj) || rising {
                continue;
            }
            if on(Plant::OwnKey) && i == j || on(Plant::EqualKeys) && numbers[i] == numbers[j] {
                continue;
            }
            let later = if on(Plant::EarlierLine) { first.line.min(second.line) } else { first.line.max(second.line) };
            smallest = Some(smallest.map_or(later, |s| s.min(later)));
        }
    }
    smallest.map_or(Ok(()), |line| Err((9, line)))
}
