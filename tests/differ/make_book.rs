//! Makes rule books: ones that load, and ones changed so that a refusal is likely. What is right the paper says.

use crate::book::NAMES;
use crate::rng::Rng;

type Lines = Vec<Vec<u8>>;

const KEYS: &[&str] = &[
    "a", "b", "c", "d", "e", "name", "corners", "A", "ab", "aa", "\\u0061", "\\", "\"", "/", "--", "-a", "~", "!", "0", "{", "]",
    "null", "r0", "end", "k23456789012345678901234567890", "k234567890123456789012345678901", "k2345678901234567890123456789012",
    "k2345678901234567890123456789013",
];

const PLAIN: &[&str] = &["null", "true", "false", "str", "num", "int"];

/// A line, with the number of its key in the order that the book shall have.
struct Line {
    key: Option<usize>,
    text: Vec<u8>,
}

struct Maker<'a> {
    rng: &'a mut Rng,
    keys: Vec<String>,
    rules: Vec<usize>,
    lines: Vec<Line>,
}

/// The bytes of a book with these lines.
pub fn joined(lines: &Lines) -> Vec<u8> {
    let mut bytes = NAMES.to_vec();
    for line in lines {
        bytes.extend_from_slice(line);
        bytes.push(b'\n');
    }
    bytes
}

/// The lines of a book that most often loads.
pub fn book_lines(rng: &mut Rng) -> Lines {
    match rng.below(12) {
        0 => fixed(rng),
        1 => {
            let mut lines = small(rng);
            pad(rng, &mut lines, 512, 128);
            lines
        }
        _ => small(rng),
    }
}

/// Books for deep nesting, and book B of the examples.
fn fixed(rng: &mut Rng) -> Lines {
    let texts: [&[&str]; 4] = [
        &["0 arr 0 - r0 0", "0 arr 0 - end -", "0 arr 0 - num 0"],
        &["0 obj 0 a r0 1", "0 obj 0 a r1 1", "0 obj 1 - end -", "0 obj 0 - end -", "1 arr 0 - r0 0", "1 arr 0 - r1 0", "1 arr 0 - end -"],
        &["0 arr 0 - int 1", "0 arr 0 - num 2", "0 arr 1 - num 3", "0 arr 2 - str 3", "0 arr 3 - r0 0", "0 arr 3 - end -", "0 arr 0 - end -"],
        &["0 obj 0 corners r1 1", "0 obj 1 name str 2", "0 obj 2 - end -", "1 arr 0 - r2 0", "1 arr 0 - end -", "2 arr 0 - int 1",
          "2 arr 1 - int 2", "2 arr 2 - end -"],
    ];
    rng.pick(&texts).iter().map(|line| line.as_bytes().to_vec()).collect()
}

/// A book of few keys or, seldom, of more than 100; of few rules or, seldom, of up to 31.
fn small(rng: &mut Rng) -> Lines {
    let mut names: Vec<String> = KEYS.iter().map(|k| k.to_string()).collect();
    rng.shuffle(&mut names);
    let (least, most) = *rng.pick(&[(1, 5), (1, 5), (4, 16), (4, 28)]);
    let mut keys = rng.range(least, most);
    if rng.chance(5) {
        names.extend((0..100).map(|i| format!("g{i}")));
        keys = names.len();
    }
    names.truncate(keys);
    let mut others: Vec<usize> = (1..32).collect();
    rng.shuffle(&mut others);
    others.truncate(if rng.chance(80) { rng.below(4) } else { rng.below(31) });
    others.insert(0, 0);
    let mut maker = Maker { rng, keys: names, rules: others, lines: Vec::new() };
    for rule in maker.rules.clone() {
        let object = if rule == 0 { maker.rng.chance(75) } else { maker.rng.chance(50) };
        if object { maker.object_rule(rule) } else { maker.array_rule(rule) }
    }
    maker.ordered()
}

impl Maker<'_> {
    fn push(&mut self, key: Option<usize>, text: String) {
        let text = text.into_bytes();
        if self.lines.iter().all(|line| line.text != text) {
            self.lines.push(Line { key, text });
        }
    }

    fn kind(&mut self) -> String {
        if self.rng.chance(60) {
            return self.rng.pick(PLAIN).to_string();
        }
        format!("r{}", self.rng.pick(&self.rules))
    }

    /// State numbers, 0 first.
    fn states(&mut self, count: usize) -> Vec<usize> {
        let mut list: Vec<usize> = (1..16).collect();
        if self.rng.chance(50) {
            self.rng.shuffle(&mut list);
        }
        list.truncate(count - 1);
        list.insert(0, 0);
        list
    }

    /// Every state has a bound: edges into it have keys below, edges out of it have keys from there on (refusal 9).
    fn object_rule(&mut self, rule: usize) {
        let most = (self.keys.len() + 1).min(16);
        let count = if self.rng.chance(80) { most.min(self.rng.range(1, 6)) } else { self.rng.range(1, most) };
        let states = self.states(count);
        let mut bounds: Vec<usize> = (1..=self.keys.len()).collect();
        self.rng.shuffle(&mut bounds);
        bounds.truncate(count - 1);
        bounds.sort();
        bounds.insert(0, 0);
        let dense = self.rng.chance(30);
        for first in 0..count {
            for second in first + 1..count {
                let often = if second == first + 1 { 95 } else if dense { 70 } else { 25 };
                while self.lines.len() <= 400 && self.rng.chance(often) {
                    let key = self.rng.range(bounds[first], bounds[second] - 1);
                    let kind = self.kind();
                    let text = format!("{rule} obj {} {} {kind} {}", states[first], self.keys[key], states[second]);
                    self.push(Some(key), text);
                    if self.rng.chance(60) {
                        break;
                    }
                }
            }
        }
        self.ends(rule, "obj", &states);
    }

    fn array_rule(&mut self, rule: usize) {
        let count = if self.rng.chance(85) { self.rng.range(1, 4) } else { self.rng.range(1, 16) };
        let states = self.states(count);
        for _ in 0..self.rng.range(0, 3 * count) {
            if self.lines.len() > 400 {
                break;
            }
            let (first, second) = (*self.rng.pick(&states), *self.rng.pick(&states));
            let text = format!("{rule} arr {first} - {} {second}", self.kind());
            self.push(None, text);
        }
        self.ends(rule, "arr", &states);
    }

    fn ends(&mut self, rule: usize, form: &str, states: &[usize]) {
        let last = states[states.len() - 1];
        self.push(None, format!("{rule} {form} {last} - end -"));
        for &state in states {
            if self.rng.chance(30) {
                self.push(None, format!("{rule} {form} {state} - end -"));
            }
        }
    }

    /// Lines with keys in the order of the keys, the others anywhere; sometimes in no order, which often is refusal 9.
    fn ordered(mut self) -> Lines {
        let mut keyed: Vec<Line> = Vec::new();
        let mut other: Vec<Line> = Vec::new();
        for line in self.lines.drain(..) {
            if line.key.is_some() { keyed.push(line) } else { other.push(line) }
        }
        self.rng.shuffle(&mut keyed);
        if self.rng.chance(92) {
            keyed.sort_by_key(|line| line.key);
        }
        for line in other {
            let at = self.rng.below(keyed.len() + 1);
            keyed.insert(at, line);
        }
        keyed.into_iter().map(|line| line.text).collect()
    }
}

/// Adds lines of unused rules until the book has so many edges and keys.
fn pad(rng: &mut Rng, lines: &mut Lines, edges: usize, keys: usize) {
    let free: Vec<usize> = (1..32).filter(|r| !lines.iter().any(|l| l.starts_with(format!("{r} ").as_bytes()))).collect();
    let [objects, arrays, ..] = free[..] else { return };
    let field = |line: &Vec<u8>, i: usize| line.split(|&b| b == b' ').nth(i).unwrap_or(b"").to_vec();
    let mut known: Vec<Vec<u8>> = lines.iter().map(|line| field(line, 3)).filter(|key| key != b"-").collect();
    known.sort();
    known.dedup();
    let mut count = lines.iter().filter(|line| field(line, 4) != b"end").count();
    let before = rng.chance(30);
    for i in known.len()..keys {
        let line = format!("{objects} obj 0 key{i} {} 15", rng.pick(PLAIN)).into_bytes();
        if before { lines.insert(0, line) } else { lines.push(line) }
        count += 1;
    }
    let more = (0..edges.saturating_sub(count)).map(|i| format!("{arrays} arr {} - {} {}", i % 16, PLAIN[i / 256 % 6], i / 16 % 16).into_bytes());
    let at = if rng.chance(50) { 0 } else { lines.len() };
    lines.splice(at..at, more);
}

/// A changed book; `number` is the refusal aimed at.
pub fn changed(rng: &mut Rng, number: usize) -> Vec<u8> {
    let mut lines = book_lines(rng);
    if number > 2 && rng.chance(25) {
        let second = rng.range(3, 10);
        change(rng, &mut lines, second);
    }
    if rng.chance(4) {
        return size_edge(rng, lines);
    }
    match number {
        1 => if rng.chance(30) { Vec::new() } else { size_edge(rng, lines) },
        2 => names_line(rng, joined(&lines)),
        _ => {
            change(rng, &mut lines, number);
            let mut bytes = joined(&lines);
            if rng.chance(10) {
                bytes.pop();
            } else if rng.chance(20) {
                flip(rng, &mut bytes);
            }
            bytes
        }
    }
}

/// A book of 65,535 to 65,538 bytes, or far more: a line too many, a long number, or a long key at its end.
fn size_edge(rng: &mut Rng, mut lines: Lines) -> Vec<u8> {
    let size = if rng.chance(90) { 65_535 + rng.below(4) } else { rng.range(65_537, 400_000) };
    let room = size.saturating_sub(joined(&lines).len() + 1);
    let line = match rng.below(4) {
        0 => vec![b'x'; room],
        1 => [b"0 arr 0 - int 1".to_vec(), vec![b'0'; room.saturating_sub(15)]].concat(),
        2 => [vec![b'7'; room.saturating_sub(16)], b" obj 0 aa null 1".to_vec()].concat(),
        _ => [b"0 obj 0 ".to_vec(), vec![b'k'; room.saturating_sub(14)], b" str 1".to_vec()].concat(),
    };
    lines.push(line);
    joined(&lines)
}

fn names_line(rng: &mut Rng, mut bytes: Vec<u8>) -> Vec<u8> {
    let at = rng.below(NAMES.len());
    match rng.below(7) {
        0 => bytes.insert(30, b'\r'),
        1 => drop(bytes.remove(at)),
        2 => bytes[at] ^= 1 << rng.below(8),
        3 => bytes.insert(at, b' '),
        4 => bytes.truncate(rng.range(1, 31)),
        5 => drop(bytes.drain(..NAMES.len())),
        _ => bytes.insert(0, b'\n'),
    }
    bytes
}

/// Changes one to four bytes anywhere.
fn flip(rng: &mut Rng, bytes: &mut Vec<u8>) {
    for _ in 0..rng.range(1, 4) {
        let at = rng.below(bytes.len());
        match rng.below(3) {
            0 => bytes[at] ^= 1 << rng.below(8),
            1 => drop(bytes.remove(at)),
            _ => bytes.insert(at, *rng.pick(b" \n\r-0129rxa\x7F\x80\x00")),
        }
    }
}

fn change(rng: &mut Rng, lines: &mut Lines, number: usize) {
    if lines.is_empty() {
        return;
    }
    let at = rng.below(lines.len());
    match number {
        3 => malformed(rng, lines, at),
        4 => {
            let huge = format!("1{}", "0".repeat(rng.range(2, 5000)));
            let wraps = (4_294_967_296 + rng.below(16) as u64).to_string();
            let number = rng.pick(&["32", "16", "99", "255", "256", "65536", &wraps, "18446744073709551616", &huge]).to_string();
            let (field, text) = *rng.pick(&[(0, ""), (2, ""), (4, "r"), (5, "")]);
            set_field(&mut lines[at], field, format!("{text}{number}").as_bytes());
        }
        5 => {
            let (edges, keys) = *rng.pick(&[(513, 1), (512, 1), (512, 1), (513, 128), (512, 128), (1, 129), (512, 129), (513, 129)]);
            pad(rng, lines, edges, keys);
            if rng.chance(40) {
                lines.push(rng.pick(lines).clone());
            }
        }
        6 => {
            let text = String::from_utf8_lossy(&lines[at]).into_owned();
            let mut other = text.replace(" obj ", " * ").replace(" arr ", " obj ").replace(" * ", " arr ").into_bytes();
            let key: &[u8] = if text.contains(" arr ") && !text.contains(" end ") { b"a" } else { b"-" };
            set_field(&mut other, 3, key);
            let place = rng.below(lines.len() + 1);
            lines.insert(place, other);
        }
        7 => {
            let place = rng.below(lines.len() + 1);
            lines.insert(place, lines[at].clone());
        }
        8 => missing_rule(rng, lines, at),
        9 => descending(rng, lines, at),
        _ => lines.insert(at, any_fields(rng)),
    }
}

/// A line of fields that each may be right, but seldom fit together.
fn any_fields(rng: &mut Rng) -> Vec<u8> {
    let small = ["0", "1", "2", "15", "16", "31", "32", "01", "-"];
    let fields = [
        *rng.pick(&small),
        *rng.pick(&["obj", "arr", "obj", "arr", "end"]),
        *rng.pick(&small),
        *rng.pick(&["-", "-", "a", "b", "name", "--"]),
        *rng.pick(&["null", "true", "false", "str", "num", "int", "end", "end", "r0", "r1", "r31", "r32", "r00", "obj"]),
        *rng.pick(&small),
    ];
    fields.join(" ").into_bytes()
}

/// Replaces field `index` of a line.
fn set_field(line: &mut Vec<u8>, index: usize, text: &[u8]) {
    let mut fields: Vec<&[u8]> = line.split(|&b| b == b' ').collect();
    if index < fields.len() {
        fields[index] = text;
    }
    *line = fields.join(&b' ');
}

/// The index of some edge of an obj rule, or of some line where there is none.
fn object_edge(rng: &mut Rng, lines: &Lines) -> usize {
    let is_edge = |i: &usize| !lines[*i].ends_with(b" -") && lines[*i].windows(5).any(|w| w == b" obj ");
    let edges: Vec<usize> = (0..lines.len()).filter(is_edge).collect();
    if edges.is_empty() { rng.below(lines.len()) } else { *rng.pick(&edges) }
}

/// Refusal 3 in its many shapes.
fn malformed(rng: &mut Rng, lines: &mut Lines, at: usize) {
    let line = &mut lines[at];
    let place = rng.below(line.len() + 1);
    let bad: [(usize, &[u8]); 24] = [
        (0, b"00"), (0, b"01"), (0, b"+1"), (0, b""), (0, b"x"), (1, b"object"), (1, b"OBJ"), (1, b"-"), (2, b"-1"), (2, b"05"),
        (2, b"1x"), (3, b"-"), (3, b"a"), (3, b"k23456789012345678901234567890123"), (3, b"\xC3\xA4"), (3, b"a\x7F"), (4, b"string"), (4, b"r"),
        (4, b"r01"), (4, b"-"), (4, b"R0"), (5, b"-"), (5, b"0"), (5, b"007"),
    ];
    match rng.below(14) {
        7 | 8 => {
            let edge = object_edge(rng, lines);
            set_field(&mut lines[edge], 3, &vec![b'k'; rng.range(32, 33)]);
        }
        0 => line.push(b'\r'),
        1 => line.insert(0, b' '),
        2 => line.push(b' '),
        3 => line.insert(place, *rng.pick(b" \t\0\x1F\x7F\xFF\r")),
        4 => line.extend_from_slice(b" -"),
        5 => line.truncate(place),
        6 => lines.insert(at, Vec::new()),
        _ => {
            let (field, text) = *rng.pick(&bad);
            set_field(line, field, text);
        }
    }
}

/// Refusal 8: lines of a rule taken away, or a reference put in; sometimes with a refusal 9 beside it.
fn missing_rule(rng: &mut Rng, lines: &mut Lines, at: usize) {
    let rule: Vec<u8> = lines[at].split(|&b| b == b' ').next().unwrap_or(b"1").to_vec();
    let other = rng.range(1, 31);
    if rng.chance(40) {
        lines.push(b"0 obj 14 zz int 14".to_vec());
    }
    match rng.below(8) {
        0 => lines.retain(|line| !line.starts_with(b"0 ")),
        1 => lines.clear(),
        2 | 3 => lines.retain(|line| !line.starts_with(&[&rule[..], b" "].concat())),
        _ => {
            for line in lines.iter_mut().skip(at) {
                if !line.ends_with(b"end -") && rng.chance(40) {
                    set_field(line, 4, format!("r{other}").as_bytes());
                }
            }
        }
    }
}

/// Refusal 9: lines in another order, an edge put in, or an edge led to its own state or another one.
fn descending(rng: &mut Rng, lines: &mut Lines, at: usize) {
    let (state, next) = (rng.below(4), rng.below(4));
    match rng.below(5) {
        0 => rng.shuffle(lines),
        1 => {
            let other = rng.below(lines.len());
            lines.swap(at, other);
        }
        2 => {
            let key = *rng.pick(KEYS);
            lines.insert(at, format!("0 obj {state} {key} {} {next}", rng.pick(PLAIN)).into_bytes());
        }
        _ => {
            let edge = object_edge(rng, lines);
            let own = lines[edge].split(|&b| b == b' ').nth(2).unwrap_or(b"0").to_vec();
            let to = if rng.chance(50) { own } else { next.to_string().into_bytes() };
            set_field(&mut lines[edge], 5, &to);
        }
    }
}
