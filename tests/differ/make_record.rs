//! Makes records: valid ones along the edges of a book, near misses, damaged bytes, and odd words, numbers and strings.

use crate::book::{Book, Edge, Form, Kind, RULES, STATES};
use crate::make_number::{number, unwhole_number, whole_number};
use crate::rng::Rng;
use crate::stream::{LONGEST, RS};

/// A value to be written down.
#[derive(Clone)]
enum Node {
    /// A scalar, as its bytes.
    Scalar(Vec<u8>),
    Arr(Vec<Node>),
    Obj(Vec<(Vec<u8>, Node)>),
}

const INTS: &[&str] = &["0", "-0", "1", "12", "-7", "907", "123456789012345678901234567890"];
const ODD: &[&str] = &[
    "01", "00", "-01", "-", "--1", "+1", "1.", ".5", "1.e1", "1e", "1e+", "1e1.5", "0x10", "1 2", "Infinity", "NaN", "nul", "nulx", "tru",
    "truE", "falsy", "fals", "True", "t", "f", "n", "trues", "nullnull", "1f", "-a", "1.2.3", "0-", "'a'", "1e5e", "00.1", "[]", "{}",
];

/// The least number of values still needed from each state to an end state; none where there is no way.
struct Ways<'a> {
    book: &'a Book,
    need: Vec<usize>,
}

const NO_WAY: usize = 1 << 30;

impl<'a> Ways<'a> {
    fn new(book: &'a Book) -> Ways<'a> {
        let mut ways = Ways { book, need: vec![NO_WAY; RULES * STATES] };
        loop {
            let before = ways.need.clone();
            for at in 0..RULES * STATES {
                let (rule, state) = (at / STATES, at % STATES);
                let ended = if book.ends[rule][state] { 0 } else { NO_WAY };
                let edges = book.edges(rule, state).iter();
                ways.need[at] = edges.map(|e| ways.through(rule, e.kind, e.next)).min().unwrap_or(NO_WAY).min(ended);
            }
            if before == ways.need {
                return ways;
            }
        }
    }

    fn through(&self, rule: usize, kind: Kind, next: usize) -> usize {
        let own = if let Kind::Rule(n) = kind { self.need[STATES * n] + 1 } else { 1 };
        (own + self.need[STATES * rule + next]).min(NO_WAY)
    }

    /// The edges of a state that lead on to an end state, and the one that leads there first.
    fn edges(&self, rule: usize, state: usize) -> (Vec<&Edge>, Option<&Edge>) {
        let through = |edge: &&Edge| self.through(rule, edge.kind, edge.next);
        let list: Vec<&Edge> = self.book.edges(rule, state).iter().filter(|edge| through(edge) < NO_WAY).collect();
        let nearest = list.iter().copied().min_by_key(through);
        (list, nearest)
    }

    /// A value with an accepting run of the rule that nests about `levels` deep where the book lets it, and is narrow.
    fn dive(&self, rng: &mut Rng, rule: usize, levels: usize) -> Node {
        let (mut list, mut state, mut inner) = (Vec::new(), 0, levels > 1);
        for step in 0.. {
            let (edges, nearest) = self.edges(rule, state);
            let Some(nearest) = nearest else { break };
            if self.book.ends[rule][state] && (!inner || step > 5) {
                break;
            }
            let references: Vec<&Edge> = edges.iter().copied().filter(|edge| matches!(edge.kind, Kind::Rule(_))).collect();
            let edge = match inner && step <= 5 {
                true if !references.is_empty() => *rng.pick(&references),
                true => *rng.pick(&edges),
                false => nearest,
            };
            let value = match edge.kind {
                Kind::Rule(n) if inner => self.dive(rng, n, levels - 1),
                Kind::Rule(n) => self.value(rng, n, &mut 0),
                plain => scalar(rng, plain),
            };
            inner &= !matches!(edge.kind, Kind::Rule(_));
            list.push((edge.key.clone(), value));
            state = edge.next;
        }
        self.node(rng, rule, list)
    }

    /// A value with an accepting run of the rule; after `room` values it heads for the nearest end.
    fn value(&self, rng: &mut Rng, rule: usize, room: &mut usize) -> Node {
        let (mut list, mut state) = (Vec::new(), 0);
        loop {
            let (edges, nearest) = self.edges(rule, state);
            let Some(nearest) = nearest else { break };
            if self.book.ends[rule][state] && (*room == 0 || rng.chance(25)) {
                break;
            }
            let edge = if *room == 0 { nearest } else { *rng.pick(&edges) };
            *room = room.saturating_sub(1);
            let value = match edge.kind {
                Kind::Rule(n) => self.value(rng, n, room),
                plain => scalar(rng, plain),
            };
            list.push((edge.key.clone(), value));
            state = edge.next;
        }
        self.node(rng, rule, list)
    }

    /// The elements in their order, or the pairs in any.
    fn node(&self, rng: &mut Rng, rule: usize, mut list: Vec<(Vec<u8>, Node)>) -> Node {
        if self.book.forms[rule] == Some(Form::Arr) {
            return Node::Arr(list.into_iter().map(|(_, value)| value).collect());
        }
        rng.shuffle(&mut list);
        Node::Obj(list)
    }
}

fn scalar(rng: &mut Rng, kind: Kind) -> Node {
    Node::Scalar(match kind {
        Kind::Null => b"null".to_vec(),
        Kind::True => b"true".to_vec(),
        Kind::False => b"false".to_vec(),
        Kind::Num => number(rng),
        Kind::Int if rng.chance(40) => rng.pick(INTS).as_bytes().to_vec(),
        Kind::Int => whole_number(rng),
        _ => string(rng, 0),
    })
}

fn any_scalar(rng: &mut Rng) -> Node {
    let kind = *rng.pick(&[Kind::Null, Kind::True, Kind::False, Kind::Num, Kind::Int, Kind::Str]);
    scalar(rng, kind)
}

/// A string; each piece is bad in `bad` of 100.
fn string(rng: &mut Rng, bad: usize) -> Vec<u8> {
    let mut bytes = vec![b'"'];
    for _ in 0..rng.below(5) {
        if rng.chance(bad) { bad_piece(rng, &mut bytes) } else { good_piece(rng, &mut bytes) }
    }
    bytes.push(b'"');
    bytes
}

fn good_piece(rng: &mut Rng, bytes: &mut Vec<u8>) {
    match rng.below(6) {
        0 => {
            let escapes = ["\\\"", "\\\\", "\\/", "\\b", "\\f", "\\n", "\\r", "\\t", "\\u0000", "\\u00e4", "\\uFFFF"];
            bytes.extend_from_slice(rng.pick(&escapes).as_bytes());
        }
        1 => {
            let (high, low) = (0xD800 + rng.below(0x400), 0xDC00 + rng.below(0x400));
            let text = if rng.chance(50) { format!("\\u{high:04x}\\u{low:04X}") } else { format!("\\u{high:04X}\\u{low:04x}") };
            bytes.extend_from_slice(text.as_bytes());
        }
        2 => {
            let ends = [
                0x7F, 0x80, 0x7FF, 0x800, 0xFFF, 0x1000, 0xD7FF, 0xE000, 0xFEFF, 0xFFFF, 0x10000, 0x3FFFF, 0x40000, 0xFFFFF, 0x100000, 0x10FFFF,
            ];
            let letter = char::from_u32(*rng.pick(&ends)).expect("no surrogate");
            bytes.extend_from_slice(letter.encode_utf8(&mut [0; 4]).as_bytes());
        }
        3 => bytes.push(*rng.pick(b"[]{},:/' 019-+.eE\x7F")),
        _ => bytes.push(rng.range(b'a' as usize, b'z' as usize) as u8),
    }
}

fn bad_piece(rng: &mut Rng, bytes: &mut Vec<u8>) {
    const BYTES: &[&[u8]] = &[
        b"\xC0\x80", b"\xC1\xBF", b"\xC2", b"\xC2\xC2", b"\xDF\x7F", b"\xE0\x80\x80", b"\xE0\x9F\xBF", b"\xE0\xA0", b"\xED\xA0\x80",
        b"\xED\xBF\xBF", b"\xED\x9F\x7F", b"\xEF\xBF", b"\xF0\x80\x80\x80", b"\xF0\x8F\xBF\xBF", b"\xF0\x90\x80", b"\xF3\xBF\xBF\xC0",
        b"\xF4\x90\x80\x80", b"\xF4\x8F\xBF", b"\xF5\x80\x80\x80", b"\xFF", b"\xFE", b"\x80", b"\xBF", b"\xE1\x80\xC0", b"\x1F", b"\0",
        b"\n", b"\t",
    ];
    const ESCAPES: &[&str] = &[
        "\\x", "\\u", "\\u1", "\\u12", "\\u123", "\\u12g4", "\\uDC00", "\\uDFFF", "\\udd00", "\\uD800", "\\uDBFF\\", "\\uD800\\n",
        "\\uD800\\u", "\\uD800\\uD800", "\\uD800\\u0041", "\\uD800x", "\\uD800\\uDB00", "\\uD83D\\uE000", "\\U0041", "\\'", "\\0",
        "\\uD8G0", "\\uDG00", "\\ud800\\ud",
    ];
    match rng.below(4) {
        0 => bytes.extend_from_slice(rng.pick(ESCAPES).as_bytes()),
        1 => {
            bytes.push(rng.range(0xC0, 0xFF) as u8);
            for _ in 0..rng.below(4) {
                bytes.push(*rng.pick(&[0x7F, 0x80, 0x8F, 0x90, 0x9F, 0xA0, 0xBF, 0xC0]));
            }
        }
        _ => bytes.extend_from_slice(BYTES[rng.below(BYTES.len())]),
    }
}

/// A value that has nothing to do with the rules, of the book's keys.
fn any_node(rng: &mut Rng, book: &Book, depth: usize) -> Node {
    match rng.below(if depth == 0 { 2 } else { 4 }) {
        0 | 1 => any_scalar(rng),
        2 => Node::Arr((0..rng.below(4)).map(|_| any_node(rng, book, depth - 1)).collect()),
        _ => Node::Obj((0..rng.below(5)).map(|_| (any_key(rng, book), any_node(rng, book, depth - 1))).collect()),
    }
}

fn any_key(rng: &mut Rng, book: &Book) -> Vec<u8> {
    let mut key = if book.keys.is_empty() { b"a".to_vec() } else { rng.pick(&book.keys).clone() };
    match rng.below(18) {
        6 => key.extend(vec![b'k'; if rng.chance(1) { 65_536 } else { *rng.pick(&[32, 224, 255, 256, 257]) }]),
        7 => key = [vec![b'k'; *rng.pick(&[32, 224, 256])], key].concat(),
        8 => key = key.repeat(rng.range(2, 20)),
        0 => key.push(0),
        1 => drop(key.pop()),
        2 => key.push(b'x'),
        3 => key[0] ^= 0x20,
        4 => key = vec![b'k'; rng.range(30, 34)],
        5 => key.extend_from_slice("\u{1F600}".as_bytes()),
        _ => {}
    }
    key
}

/// Writes a value with blanks here and there; keys with some of their letters escaped.
fn write(rng: &mut Rng, node: &Node, loose: usize, out: &mut Vec<u8>) {
    let (open, close, count) = match node {
        Node::Scalar(bytes) => return out.extend_from_slice(bytes),
        Node::Arr(list) => (b'[', b']', list.len()),
        Node::Obj(pairs) => (b'{', b'}', pairs.len()),
    };
    out.push(open);
    blanks(rng, loose, out);
    for i in 0..count {
        if i > 0 {
            out.push(b',');
            blanks(rng, loose, out);
        }
        match node {
            Node::Arr(list) => write(rng, &list[i], loose, out),
            Node::Obj(pairs) => {
                write_key(rng, &pairs[i].0, out);
                blanks(rng, loose, out);
                out.push(b':');
                blanks(rng, loose, out);
                write(rng, &pairs[i].1, loose, out);
            }
            Node::Scalar(_) => {}
        }
        blanks(rng, loose, out);
    }
    out.push(close);
}

fn blanks(rng: &mut Rng, loose: usize, out: &mut Vec<u8>) {
    while rng.chance(loose) {
        out.push(*rng.pick(b" \t\n\r"));
    }
}

fn write_key(rng: &mut Rng, key: &[u8], out: &mut Vec<u8>) {
    let escaped = if rng.chance(70) { 0 } else { rng.range(10, 100) };
    out.push(b'"');
    for letter in String::from_utf8_lossy(key).chars() {
        if rng.chance(escaped) || (letter as u32) < 0x20 {
            for unit in letter.encode_utf16(&mut [0; 2]) {
                let text = if rng.chance(50) { format!("\\u{unit:04x}") } else { format!("\\u{unit:04X}") };
                out.extend_from_slice(text.as_bytes());
            }
        } else if letter == '"' || letter == '\\' || letter == '/' && rng.chance(30) {
            out.extend_from_slice(&[b'\\', letter as u8]);
        } else {
            out.extend_from_slice(letter.encode_utf8(&mut [0; 4]).as_bytes());
        }
    }
    out.push(b'"');
}

/// Changes one place of a value: a key missing, doubled, renamed, another kind, a number not whole, an element more or less.
fn near_miss(rng: &mut Rng, book: &Book, node: &mut Node) {
    let down = rng.chance(50);
    match node {
        Node::Arr(list) if down && !list.is_empty() => {
            let at = rng.below(list.len());
            near_miss(rng, book, &mut list[at]);
        }
        Node::Obj(pairs) if down && !pairs.is_empty() => {
            let at = rng.below(pairs.len());
            near_miss(rng, book, &mut pairs[at].1);
        }
        Node::Arr(list) if rng.chance(80) => {
            let at = rng.below(list.len() + 1);
            match rng.below(3) {
                0 => list.insert(at, any_scalar(rng)),
                1 if at < list.len() => drop(list.remove(at)),
                _ => rng.shuffle(list),
            }
        }
        Node::Obj(pairs) if rng.chance(80) => pair_miss(rng, book, pairs),
        Node::Scalar(bytes) if bytes[0] == b'-' || bytes[0].is_ascii_digit() => *bytes = unwhole_number(rng),
        _ => *node = any_node(rng, book, 2),
    }
}

fn pair_miss(rng: &mut Rng, book: &Book, pairs: &mut Vec<(Vec<u8>, Node)>) {
    let at = rng.below(pairs.len());
    let place = rng.below(pairs.len() + 1);
    match rng.below(5) {
        0 if !pairs.is_empty() => drop(pairs.remove(at)),
        1 if !pairs.is_empty() => pairs.insert(place, pairs[at].clone()),
        2 if !pairs.is_empty() => pairs.insert(place, (pairs[at].0.clone(), any_scalar(rng))),
        3 if !pairs.is_empty() => pairs[at].0 = any_key(rng, book),
        _ => pairs.insert(place, (any_key(rng, book), any_node(rng, book, 1))),
    }
}

/// Damages bytes: flips, cuts, and bytes put in.
fn damage(rng: &mut Rng, bytes: &mut Vec<u8>) {
    for _ in 0..rng.range(1, 3) {
        let at = rng.below(bytes.len() + 1);
        let end = (at + rng.range(1, 6)).min(bytes.len());
        match rng.below(7) {
            0 if at < bytes.len() => bytes[at] ^= 1 << rng.below(8),
            1 if at < bytes.len() => drop(bytes.remove(at)),
            2 => bytes.insert(at, *rng.pick(b"{}[],:\"\\ntf-+.eE019 \x0C")),
            3 => bytes.insert(at, rng.range(0x80, 0xFF) as u8),
            4 => bytes.insert(at, rng.below(256) as u8),
            5 => drop(bytes.drain(at..end)),
            _ => {
                let copy = bytes[at..end].to_vec();
                bytes.splice(at..at, copy);
            }
        }
    }
}

/// Openings around the level limit, of arrays and of objects with the book's keys; closed, cut or broken.
fn deep(rng: &mut Rng, book: &Book, limit: usize) -> Vec<u8> {
    let levels = rng.range(limit.saturating_sub(2).max(1), limit + 3);
    let (mut bytes, mut closing) = (Vec::new(), Vec::new());
    let objects = *rng.pick(&[0, 0, 30, 50, 100]);
    let before = *rng.pick(&["", "", "1,", "[],", "{},", " "]);
    for _ in 0..levels {
        if rng.chance(objects) {
            bytes.push(b'{');
            let key = any_key(rng, book);
            write_key(rng, &key, &mut bytes);
            bytes.push(b':');
            closing.push(b'}');
        } else {
            bytes.push(b'[');
            bytes.extend_from_slice(before.as_bytes());
            closing.push(b']');
        }
    }
    if rng.chance(25) {
        bytes.extend_from_slice(rng.pick(&["{[", "{{", "1[", "\"a\"{", "[]", "{}", "{\"a\"[", "x", "null{"]).as_bytes());
        return bytes;
    }
    if rng.chance(60) || bytes.ends_with(b":") || bytes.ends_with(b",") {
        bytes.extend_from_slice(rng.pick(&["0", "[]", "{}", "null"]).as_bytes());
    }
    closing.reverse();
    bytes.extend_from_slice(&closing[..if rng.chance(85) { levels } else { rng.below(levels) }]);
    bytes
}

/// A list of odd things, most of them malformed, each in a place of a text.
fn odd(rng: &mut Rng) -> Vec<u8> {
    let thing = match rng.below(5) {
        0 | 1 => string(rng, 40),
        2 => rng.pick(ODD).as_bytes().to_vec(),
        3 => (0..rng.range(1, 7)).map(|_| *rng.pick(b"-+.eE001129")).collect(),
        _ => (0..rng.range(1, 8)).map(|_| *rng.pick(b"[]{},:\"a1 \\")).collect(),
    };
    const AROUND: &[(&str, &str)] = &[
        ("", ""), ("", ""), ("[", "]"), ("[1,", " ]"), ("{\"a\":", "}"), ("{\"a\" : ", ",\"b\":1}"), ("{", ":1}"), (" ", "\n"), ("[", "}"),
    ];
    let (before, behind) = *rng.pick(AROUND);
    [before.as_bytes(), &thing, behind.as_bytes()].concat()
}

/// Records for an accepted book, each without its RS; some hold an RS of their own, and some nest about as deep as `limit`.
pub fn records(rng: &mut Rng, book: &Book, count: usize, limit: usize) -> Vec<Vec<u8>> {
    let ways = Ways::new(book);
    let mut list: Vec<Vec<u8>> = Vec::new();
    while list.len() < count {
        let form = rng.below(100);
        if form < 8 {
            list.push(deep(rng, book, limit));
            continue;
        }
        if form < 22 {
            list.push(odd(rng));
            continue;
        }
        let mut node = if ways.need[0] < NO_WAY && rng.chance(90) {
            let mut room = if rng.chance(96) { rng.below(20) } else { rng.below(600) };
            let levels = if rng.chance(8) { rng.range(limit * 2 / 3, limit + 2) } else { 0 };
            if levels > 0 { ways.dive(rng, 0, levels) } else { ways.value(rng, 0, &mut room) }
        } else {
            any_node(rng, book, 3)
        };
        if form < 55 {
            near_miss(rng, book, &mut node);
        }
        let loose = *rng.pick(&[0, 0, 10, 40]);
        let mut bytes = Vec::new();
        blanks(rng, loose, &mut bytes);
        write(rng, &node, loose, &mut bytes);
        blanks(rng, loose, &mut bytes);
        finish(rng, bytes, &mut list);
    }
    list
}

/// The record itself, or damaged, cut at every byte, with a byte order mark, or with an RS in it.
fn finish(rng: &mut Rng, mut bytes: Vec<u8>, list: &mut Vec<Vec<u8>>) {
    match rng.below(40) {
        0 if bytes.len() < 120 && rng.chance(40) => return list.extend((0..=bytes.len()).map(|end| bytes[..end].to_vec())),
        1 => bytes.truncate(rng.below(bytes.len())),
        2..=7 => damage(rng, &mut bytes),
        8 => bytes.insert(rng.below(bytes.len() + 1), RS),
        9 => bytes.splice(0..0, *b"\xEF\xBB\xBF").for_each(drop),
        10 => bytes.push(*rng.pick(b"x1,]}\"\0\xFF")),
        _ => {}
    }
    list.push(bytes);
}

/// The records as one stream: sometimes a head, empty parts, and an RS at the end.
pub fn stream(rng: &mut Rng, records: &[Vec<u8>]) -> Vec<u8> {
    let mut bytes = Vec::new();
    if rng.chance(30) {
        bytes.extend_from_slice(rng.pick(&["z", "{}", "[]\n", "\n", "\"", "{\"a\":1}", "[[[["]).as_bytes());
    }
    for record in records {
        while rng.chance(4) {
            bytes.push(RS);
        }
        bytes.push(RS);
        bytes.extend_from_slice(record);
        if rng.chance(30) {
            bytes.push(b'\n');
        }
    }
    while rng.chance(20) {
        bytes.push(RS);
    }
    bytes
}

/// Beginnings of texts: one for every place that the grammar knows.
const BEGINNINGS: &[&[u8]] = &[
    b"", b" ", b"n", b"nu", b"nul", b"null", b"t", b"tr", b"tru", b"true", b"f", b"fa", b"fal", b"fals", b"false", b"-", b"0", b"-0", b"1",
    b"12", b"1.", b"1.5", b"1e", b"1E", b"1e+", b"1e-", b"1e5", b"0.", b"0e", b"1.5e", b"\"", b"\"a", b"\"\\", b"\"\\u", b"\"\\u0",
    b"\"\\u00", b"\"\\u000", b"\"\\u0000", b"\"\\ud", b"\"\\uD", b"\"\\uD8", b"\"\\ud80", b"\"\\uDBFF", b"\"\\uD800\\", b"\"\\uD800\\u",
    b"\"\\uD800\\ud", b"\"\\uD800\\uDC", b"\"\\uD800\\uDF0", b"\"\\uD800\\uDC00", b"\"\\n", b"\"\xC2", b"\"\xDF", b"\"\xE0", b"\"\xE0\xA0",
    b"\"\xE1", b"\"\xE1\x80", b"\"\xEC", b"\"\xED", b"\"\xED\x9F", b"\"\xEE", b"\"\xEF", b"\"\xEF\xBF", b"\"\xF0", b"\"\xF0\x90",
    b"\"\xF0\x90\x80", b"\"\xF1", b"\"\xF3\x80", b"\"\xF3\x80\x80", b"\"\xF4", b"\"\xF4\x8F", b"\"\xF4\x8F\xBF", b"\"\"", b"[", b"[ ",
    b"[1", b"[1 ", b"[1,", b"[1, ", b"[]", b"[[", b"[[]", b"[{}", b"[null", b"[tru", b"[\"\"", b"[\"", b"[0", b"[-", b"[1.", b"[1.0",
    b"[1e", b"[1e1", b"{", b"{ ", b"{\"", b"{\"a", b"{\"\\", b"{\"\\u006", b"{\"a\"", b"{\"a\" ", b"{\"a\":", b"{\"a\": ", b"{\"a\":1",
    b"{\"a\":1 ", b"{\"a\":1,", b"{\"a\":1, ", b"{\"a\":null", b"{\"a\":\"\"", b"{}", b"{\"a\":{}", b"{\"a\":[", b"{\"a\":[]", b"{\"\xE0",
    b"{\"\xF4", b"\xEF", b"\xEF\xBB",
];

/// Every byte after each beginning of a text, at the root or inside an array.
pub fn every_byte(inside: &[u8]) -> Vec<Vec<u8>> {
    let all = |start: &&[u8]| {
        let start = [inside, start].concat();
        (0..=255).map(move |byte| [&start[..], &[byte]].concat()).collect::<Vec<_>>()
    };
    BEGINNINGS.iter().flat_map(all).collect()
}

/// The number of long streams.
pub const LONG_STREAMS: u64 = 15;

/// Streams around 16,777,216 bytes, one for each number `which`, for a book whose rule 0 is an array of strings and numbers.
pub fn long_stream(which: u64) -> Vec<u8> {
    let alone = |start: &[u8], fill: u8, end: &[u8], length: usize| {
        let middle = vec![fill; length + 1 - start.len() - end.len()];
        [start, &middle, end].concat()
    };
    let filled = |start: &[u8], fill: u8, end: &[u8], length: usize| [alone(start, fill, end, length), b"\x1E[]".to_vec()].concat();
    let deep = |count: usize| [vec![RS], vec![b'['; count]].concat();
    match which {
        0 => filled(b"\x1E[", b' ', b"]", LONGEST),
        1 => filled(b"\x1E[\"", b'a', b"\"]", LONGEST + 1),
        2 => filled(b"\x1E[]", b' ', b"x", LONGEST + 1),
        3 => filled(b"\x1E[", b'1', b"", LONGEST),
        4 => filled(&deep(64), b'\n', b"[", LONGEST + 1),
        5 => filled(b"\x1E[1,]", b' ', b"", LONGEST + 5),
        6 => filled(b"\x1E[1.0", b'0', b"x", LONGEST),
        7 => filled(&deep(64), b'\r', b"[", LONGEST),
        8 => alone(b"\x1E[\"\",1", b'0', b",", LONGEST + 1),
        9 => alone(b"\x1E[\"\",1", b'0', b", ", LONGEST + 1),
        10 => alone(b"\x1E[null,", b' ', b"true,[", LONGEST + 3),
        11 => alone(b"\x1E{\"", b'a', b"\":1,\"a\":\"\",", LONGEST + 9),
        12 => alone(b"\x1E[{\"a\":", b'\t', b"1}", LONGEST + 1),
        13 => alone(b"\x1E[null,", b' ', b"true,[", LONGEST + 2),
        _ => filled(b"", b' ', b"", LONGEST + 1),
    }
}
