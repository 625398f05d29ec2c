//! Makes texts of fields with points: shapes whose sides cross, run along each other or vanish, points on corners, sides and their heights; and
//! texts that are refused in every way.

use crate::make_track;
use crate::rng::Rng;
use crate::stream::{LONGEST, RS};

/// A text, points to be located in it, and a track over it.
pub struct Made {
    pub text: Vec<u8>,
    pub points: Vec<Point>,
    pub track: Vec<Point>,
}

pub type Point = (i32, i32);

const FAR: i32 = 1_000_000;
/// Points of a text of few corners, and of many.
const POINTS: usize = 10;
const FEW_POINTS: usize = 3;
const MANY: usize = 64;

/// Coordinates that no point may have.
const OUT: &[i32] = &[1_000_001, -1_000_001, i32::MAX, i32::MIN, i32::MIN + 1, 1_000_002, 2_000_000, -9_999_999, 1 << 24, -(1 << 24)];
/// A convex ring, from which stars are drawn.
const RING: &[Point] = &[(10, 0), (9, 5), (5, 9), (0, 10), (-5, 9), (-9, 5), (-10, 0), (-9, -5), (-5, -9), (0, -10), (5, -9)];
/// Whole values and others, no number of plain digits within reach.
const ODD: &[&str] = &[
    "1.0", "1e2", "10e-1", "-0.0", "0e0", "0E-5", "-0e1", "0.0", "1E+6", "1000000.0", "100e-2", "1.50e1", "1000001", "-1000001", "9999999",
    "10000000", "-10000000", "1000000000", "2147483647", "2147483648", "-2147483648", "-2147483649", "4294967296", "4294967297", "-4294967295",
    "4295967296", "18446744073709551616", "18446744073709551617", "-18446744073709551615", "99999999999999999999999", "1e99999999999999999999",
];
/// Numbers that are not whole, and some that are no numbers.
const WRONG: &[&str] = &["1.5", "15e-1", "-0.5", "1e-1", "01", "-01", "00", "+1", "1.", ".5", "-", "--1", "1e", "0x1", "1 2", "-+1", "1-", ""];
const NAMES: &[&str] = &[
    "", "N", "17", "[[1,2]]", "]", "}", "{", "1,2", "-5", "corners", "\\\"corners\\\":[[9,9]]", "\\\\", "\\\"", "a\\\\\\\"[1", "\\u005b[1,2]",
    "C\u{f4}te", "\u{8349}\u{5730} 3", "\\ud83c\\udf3e 4", "1000001", "\\n2\\t3", "name", "0.5e1", "x:1,y:2", "\u{7f}",
];
const OTHERS: &[&str] = &["null", "true", "\"1\"", "\"\"", "{}", "[]", "{\"x\":1}", "1", "[1]", "[[1,2]]", "1.5", "[{\"corners\":[]}]"];
const KEYS: &[&str] = &["\"more\"", "\"\"", "\"Corners\"", "\"corner\"", "\"names\"", "\"name \""];
const WHOLE: &[&str] = &[
    "", " ", "\n", "{}", "[]", "null", "12", "-", "\"", "[[", "{\"corners\":[[0,0],[1,0],[0,1]]}", "{\"name\":\"\"}", "{\"corners\":[],\"name\":\"\"}",
    "[[0,0],[1,0],[0,1]]", "[{\"corners\":[[0,0],[1,0],[0,1]],\"name\":\"\"}]", "\u{feff}{\"corners\":[[0,0],[1,0],[0,1]],\"name\":\"\"}",
];

/// Texts that are made once: a field that fills a record with blanks, one byte more, and numbers of many digits.
const LISTED: u64 = 6;
/// Fields of three and of four corners on a grid of 3 by 3.
const THREE: u64 = 9 * 9 * 9;
const FOUR: u64 = 9 * THREE;
/// The first field that is made by chance.
pub const FIRST: u64 = LISTED + THREE + FOUR;

/// Field `number` of a seed.
pub fn made(seed: u64, number: u64) -> Made {
    let rng = &mut Rng::new(seed ^ 0xF1E1D, number);
    match number {
        0..LISTED => return listed(rng, number),
        LISTED..FIRST => return on_grid(rng, number - LISTED),
        _ => (),
    }
    let corners = shape(rng);
    let points = points(rng, &corners);
    let mut text = written(rng, &corners);
    if rng.chance(12) {
        damage(rng, &mut text);
    }
    if rng.chance(2) {
        text = rng.pick(WHOLE).as_bytes().to_vec();
    }
    let track = make_track::by_chance(rng, &points, &corners);
    Made { text, points, track }
}

fn listed(rng: &mut Rng, number: u64) -> Made {
    let field = |first: &str| format!("{{\"corners\":[[{first},0],[8,0],[0,8]],\"name\":\"[1\"}}");
    let zeros = "0".repeat(200_000);
    let padded = |length| [field("-0").as_bytes(), &vec![b' '; length]].concat()[..length].to_vec();
    let text = match number {
        0 => padded(LONGEST),
        1 => padded(LONGEST + 1),
        2 => field(&format!("1{zeros}")).into_bytes(),
        3 => field(&format!("1{zeros}e-200000")).into_bytes(),
        4 => field(&format!("-0.{zeros}")).into_bytes(),
        _ => field(&format!("1{zeros}e-200001")).into_bytes(),
    };
    let points = points(rng, &[(0, 0), (8, 0), (0, 8)]);
    let track = make_track::of_all(rng, &points);
    Made { text, points, track }
}

/// A field of three or four corners on the grid, with every point of the grid and next to it.
fn on_grid(rng: &mut Rng, number: u64) -> Made {
    let (count, mut rest) = if number < THREE { (3, number) } else { (4, number - THREE) };
    let mut corners = Vec::new();
    for _ in 0..count {
        corners.push(format!("[{},{}]", rest % 3, rest / 3 % 3));
        rest /= 9;
    }
    let text = format!("{{\"name\":\"\",\"corners\":[{}]}}", corners.join(","));
    let points: Vec<Point> = (-1..4).flat_map(|x| (-1..4).map(move |y| (x, y))).collect();
    let track = make_track::of_all(rng, &points);
    Made { text: text.into_bytes(), points, track }
}

fn between(rng: &mut Rng, low: i32, high: i32) -> i32 {
    low + rng.below((high - low + 1) as usize) as i32
}

fn any_point(rng: &mut Rng, far: i32) -> Point {
    (between(rng, -far, far), between(rng, -far, far))
}

fn many(rng: &mut Rng, low: usize, high: usize, mut point: impl FnMut(&mut Rng) -> Point) -> Vec<Point> {
    (0..rng.range(low, high)).map(|_| point(rng)).collect()
}

/// The corners of a field; now and then too few, and around the limit of 1,024.
fn shape(rng: &mut Rng) -> Vec<Point> {
    let count = match rng.below(100) {
        0..=1 => *rng.pick(&[1023, 1024, 1024, 1025, 1025, 1026, 2048]),
        2..=5 => rng.below(3),
        _ => return changed(rng),
    };
    let far = *rng.pick(&[2, 40, 900, FAR]);
    many(rng, count, count, |rng| any_point(rng, far))
}

/// A plain shape, some of whose corners are repeated, or which is moved to a far place.
fn changed(rng: &mut Rng) -> Vec<Point> {
    let mut corners = plain(rng);
    if rng.chance(12) {
        let at = rng.below(corners.len());
        corners.insert(at, corners[at]);
    }
    if rng.chance(8) {
        corners.push(corners[0]);
    }
    let reach = corners.iter().map(|corner| corner.0.abs().max(corner.1.abs())).max().unwrap_or(0);
    if rng.chance(15) {
        let (right, up) = (rng.chance(50), rng.chance(50));
        let moved = |at: i32, positive: bool| if positive { at + FAR - reach } else { at - FAR + reach };
        corners.iter_mut().for_each(|corner| *corner = (moved(corner.0, right), moved(corner.1, up)));
    }
    corners
}

fn plain(rng: &mut Rng) -> Vec<Point> {
    match rng.below(12) {
        0..=2 => {
            let far = rng.range(1, 6) as i32;
            many(rng, 3, 9, |rng| any_point(rng, far))
        }
        3 => many(rng, 3, 20, |rng| any_point(rng, 30)),
        4 => many(rng, 3, 12, |rng| any_point(rng, FAR)),
        5 => many(rng, 3, 8, |rng| (*rng.pick(&[-FAR, FAR, 0, 1 - FAR, FAR - 1, 1]), *rng.pick(&[-FAR, FAR, 0, 1 - FAR, FAR - 1, -1]))),
        6 => {
            let corner = any_point(rng, 5);
            many(rng, 3, 6, |_| corner)
        }
        7 => on_line(rng),
        8 => {
            let (stride, size) = (rng.range(1, 10), between(rng, 1, 9));
            (0..RING.len()).map(|i| RING[i * stride % RING.len()]).map(|(x, y)| (size * x, size * y)).collect()
        }
        9 => stairs(rng),
        10 => {
            let size = between(rng, 1, 8);
            [(0, 0), (size, 0), (size, size), (0, size)].repeat(rng.range(1, 3))
        }
        _ => wide_grid(rng),
    }
}

/// Corners on one line.
fn on_line(rng: &mut Rng) -> Vec<Point> {
    let (from, step) = (any_point(rng, 9), any_point(rng, 3));
    many(rng, 3, 8, |rng| {
        let steps = between(rng, -4, 4);
        (from.0 + steps * step.0, from.1 + steps * step.1)
    })
}

/// Corners on a grid with wide steps, so that sides have points between their ends; with steps of 2^16 their products are multiples of 2^32.
fn wide_grid(rng: &mut Rng) -> Vec<Point> {
    let step = if rng.chance(30) { 1 << 16 } else { between(rng, 1, 90_000) };
    many(rng, 3, 8, |rng| {
        let (x, y) = any_point(rng, 6);
        (step * x, step * y)
    })
}

/// Sides along both axes by turns.
fn stairs(rng: &mut Rng) -> Vec<Point> {
    let mut at = any_point(rng, 4);
    (0..2 * rng.range(2, 6)).map(|i| {
        let step = between(rng, -4, 4);
        at = if i % 2 == 0 { (at.0 + step, at.1) } else { (at.0, at.1 + step) };
        at
    }).collect()
}

fn points(rng: &mut Rng, corners: &[Point]) -> Vec<Point> {
    let count = if corners.len() > MANY { FEW_POINTS } else { POINTS };
    (0..count).map(|_| point(rng, corners)).collect()
}

fn divisor(a: i32, b: i32) -> i32 {
    if b == 0 { a.abs() } else { divisor(b, a % b) }
}

/// A point on a side, beside one, at the height of a corner, out of range, or anywhere.
pub fn point(rng: &mut Rng, corners: &[Point]) -> Point {
    if corners.is_empty() {
        return any_point(rng, 10);
    }
    let side = rng.below(corners.len());
    let (a, b) = (corners[side], corners[(side + 1) % corners.len()]);
    let parts = divisor(b.0 - a.0, b.1 - a.1).max(1);
    let along = |part: i32| (a.0 + (b.0 - a.0) / parts * part, a.1 + (b.1 - a.1) / parts * part);
    let other = *rng.pick(corners);
    match rng.below(20) {
        0 => a,
        1..=2 => along(between(rng, 0, parts)),
        3 => along(parts + between(rng, 1, 2)),
        4 => along(-between(rng, 1, 2)),
        5 => {
            let on = along(between(rng, 0, parts));
            (on.0 + between(rng, -1, 1), on.1 + between(rng, -1, 1))
        }
        6 => ((a.0 + b.0) / 2, (a.1 + b.1) / 2),
        7 => ((a.0 + other.0) / 2, (a.1 + other.1) / 2),
        8..=9 => (a.0 + between(rng, -12, 12), b.1),
        10 => (between(rng, a.0.min(other.0), a.0.max(other.0)), b.1),
        11 => (a.0, a.1 + between(rng, -12, 12)),
        12..=16 => (between(rng, a.0.min(other.0), a.0.max(other.0)), between(rng, a.1.min(other.1), a.1.max(other.1))),
        17 => any_point(rng, 12),
        18 => match rng.below(3) {
            0 => any_point(rng, FAR),
            _ => (*rng.pick(&[FAR, -FAR, 0]), *rng.pick(&[FAR, -FAR, a.1])),
        },
        _ => out_of_range(rng, a),
    }
}

/// A point with one number out of range and one of another point, or with both out of range.
pub fn out_of_range(rng: &mut Rng, (x, y): Point) -> Point {
    match rng.below(3) {
        0 => (*rng.pick(OUT), y),
        1 => (x, *rng.pick(OUT)),
        _ => (*rng.pick(OUT), *rng.pick(OUT)),
    }
}

fn blanks(rng: &mut Rng, some: bool) -> String {
    if !some { String::new() } else { (0..rng.below(3)).map(|_| *rng.pick(&[' ', '\t', '\n', '\r'])).collect() }
}

/// A key, some of its letters escaped.
fn key(rng: &mut Rng, key: &str, escaped: bool) -> String {
    let letter = |rng: &mut Rng, letter: char| match escaped && rng.chance(40) {
        false => letter.to_string(),
        true if rng.chance(50) => format!("\\u{:04x}", letter as u32),
        true => format!("\\u{:04X}", letter as u32),
    };
    let letters: String = key.chars().map(|c| letter(rng, c)).collect();
    format!("\"{letters}\"")
}

/// The numbers of the corners as they are written: plain, or one or some of them otherwise.
fn numbers(rng: &mut Rng, corners: &[Point]) -> Vec<String> {
    let minus_zero = rng.chance(25);
    let plain = |rng: &mut Rng, number: i32| if number == 0 && minus_zero && rng.chance(50) { "-0".to_string() } else { number.to_string() };
    let mut list: Vec<String> = corners.iter().flat_map(|&(x, y)| [x, y]).map(|number| plain(rng, number)).collect();
    let others = if rng.chance(78) { 0 } else { *rng.pick(&[1, 1, 1, 2, 5]) };
    for _ in 0..others.min(list.len()) {
        let at = match rng.below(4) {
            0 => 0,
            1 => list.len() - 1,
            _ => rng.below(list.len()),
        };
        list[at] = match rng.below(10) {
            0 => rng.pick(WRONG).to_string(),
            1 => format!("{}.0", list[at]),
            2 => format!("{}e0", list[at]),
            3 => format!("{}0e-1", list[at]),
            4 => many_digits(rng),
            _ => rng.pick(ODD).to_string(),
        };
    }
    list
}

fn many_digits(rng: &mut Rng) -> String {
    let sign = if rng.chance(30) { "-" } else { "" };
    let zeros = rng.chance(50);
    let digits: String = (0..rng.range(7, 300)).map(|_| if zeros { '0' } else { char::from(b'0' + rng.below(10) as u8) }).collect();
    format!("{sign}{}{digits}", rng.range(1, 9))
}

/// The text of a field, at times one that book B does not accept.
fn written(rng: &mut Rng, corners: &[Point]) -> Vec<u8> {
    let (some, escaped, wrong) = (rng.chance(25), rng.chance(15), rng.chance(10));
    let numbers = numbers(rng, corners);
    let gap = |rng: &mut Rng| blanks(rng, some);
    let mut list: Vec<String> = Vec::new();
    for pair in numbers.chunks_exact(2) {
        let corner = format!("{}[{}{}{},{}{}{}]{}", gap(rng), gap(rng), pair[0], gap(rng), gap(rng), pair[1], gap(rng), gap(rng));
        list.push(corner);
    }
    let (mut name, mut more) = (format!("\"{}\"", rng.pick(NAMES)), None);
    if wrong {
        more = wrong_part(rng, &mut list, &mut name);
    }
    let joined = if wrong && rng.chance(10) { rng.pick(OTHERS).to_string() } else { format!("[{}]", list.join(",")) };
    let mut pairs = vec![(key(rng, "corners", escaped), joined), (key(rng, "name", escaped), name)];
    if let Some((place, pair)) = more {
        match pair {
            Some(pair) => pairs.insert(place, pair),
            None => drop(pairs.remove(place)),
        }
    }
    if rng.chance(50) {
        pairs.reverse();
    }
    let pairs: Vec<String> =
        pairs.into_iter().map(|(key, value)| format!("{}{key}{}:{}{value}{}", gap(rng), gap(rng), gap(rng), gap(rng))).collect();
    format!("{}{{{}}}{}", gap(rng), pairs.join(","), gap(rng)).into_bytes()
}

/// A pair to be put in at a place, or the pair there to be taken out.
type More = Option<(usize, Option<(String, String)>)>;

/// Changes a corner or the name, or gives a pair to be put in or taken out.
fn wrong_part(rng: &mut Rng, list: &mut Vec<String>, name: &mut String) -> More {
    let at = rng.below(list.len());
    let other = *rng.pick(OTHERS);
    match (rng.below(12), list.is_empty()) {
        (0, false) => list[at] = format!("[{other},1]"),
        (1, false) => list[at] = format!("[1,{other}]"),
        (2, false) => list[at] = other.to_string(),
        (3, false) => list[at] = "[1]".to_string(),
        (4, false) => list[at] = "[1,2,3]".to_string(),
        (5, false) => list[at] = format!("[{}]", list[at]),
        (6, _) => *name = other.to_string(),
        (7, _) => return Some((rng.below(2), None)),
        (8, _) => return Some((rng.below(3), Some((rng.pick(KEYS).to_string(), other.to_string())))),
        (9, _) => return Some((rng.below(3), Some((key(rng, "name", true), "\"\"".to_string())))),
        (10, _) => return Some((rng.below(3), Some((key(rng, "corners", true), format!("[{}]", list.join(",")))))),
        _ => list.push(other.to_string()),
    }
    None
}

/// Bytes that go, come, change or end the text too early; RS anywhere.
fn damage(rng: &mut Rng, text: &mut Vec<u8>) {
    let at = rng.below(text.len());
    match rng.below(9) {
        0 => text.truncate(at),
        1 => drop(text.remove(at)),
        2 => text.insert(at, *rng.pick(b"[]{},:\"0-. x\\\0")),
        3 => text[at] = rng.next() as u8,
        4 => text[at] = *rng.pick(b"[]{},:\"019-.e "),
        5 => text.insert(at, RS),
        6 => text.insert(0, RS),
        7 => text.push(*rng.pick(&[RS, b'x', b'}', b',', 0, b'1', b'\n'])),
        _ => text.extend_from_within(..),
    }
}
