//! The paper, part nine: the corners of a field, where a point lies to them, and which corner is nearest (docs/REQUIREMENT.md, section 9). A place
//! on a side, and the place where a side crosses a height, are fractions: nothing is rounded.

use crate::book::Book;
use crate::plant::{on, Plant};
use crate::stream::{verdict, Part, Verdict};
use crate::text;
use std::cmp::Ordering;

/// Corners, at least and at most.
const LEAST: usize = 3;
pub const MOST: usize = 1024;
/// How far a coordinate may lie from 0, in centimetres.
pub const REACH: i128 = 1_000_000;
/// Levels for the text: a valid one opens three.
const LEVELS: usize = 64;

const OUTSIDE: u32 = 0;
const INSIDE: u32 = 1;
const EDGE: u32 = 2;

pub type Corner = (i128, i128);

pub fn corner((x, y): (i32, i32)) -> Corner {
    (x.into(), y.into())
}

/// A fraction; its lower number is above 0.
struct Fraction {
    upper: i128,
    lower: i128,
}

impl Fraction {
    fn new(upper: i128, lower: i128) -> Fraction {
        Fraction { upper: upper * lower.signum(), lower: lower.abs() }
    }

    fn compare(&self, whole: i128) -> Ordering {
        self.upper.cmp(&(whole * self.lower))
    }
}

/// What a text says.
pub struct Field {
    /// Its corners, or the number of its refusal.
    pub corners: Result<Vec<Corner>, u32>,
    /// The corners that stand in it, where it is a whole text.
    pub standing: usize,
    /// Planted faults only: the numbers that can be read of a refused text.
    rest: Vec<Corner>,
}

/// A coordinate: plain digits, perhaps after one minus sign, within reach; none of any other number.
fn coordinate(number: &[u8]) -> Option<i128> {
    let number = if on(Plant::FieldPoint) { number.strip_suffix(b".0").unwrap_or(number) } else { number };
    let (negative, digits) = match number.strip_prefix(b"-") {
        Some(digits) => (!on(Plant::FieldMinus), digits),
        None => (false, number),
    };
    if on(Plant::FieldMinusZero) && number == b"-0" {
        return None;
    }
    if let (true, [digit, b'e' | b'E', power @ b'0'..=b'6']) = (on(Plant::FieldExponent), digits) {
        return Some(i128::from(digit - b'0') * 10i128.pow(u32::from(power - b'0')));
    }
    if !digits.iter().all(u8::is_ascii_digit) {
        return None;
    }
    let size = size(digits)?;
    let value = if negative { -size } else { size };
    in_reach(value).then_some(value)
}

/// The number that digits show; none where it is far above the reach.
fn size(digits: &[u8]) -> Option<i128> {
    let shown = |digits: &[u8]| digits.iter().fold(0u64, |number, digit| number.wrapping_mul(10).wrapping_add((digit - b'0').into()));
    let first = digits.iter().position(|&digit| digit != b'0').unwrap_or(digits.len());
    let digits = &digits[first..];
    match digits.len() {
        _ if on(Plant::FieldWraps32) => Some((shown(digits) as u32).into()),
        _ if on(Plant::FieldWraps64) => Some(shown(digits).into()),
        8.. if on(Plant::FieldCut) => Some(shown(&digits[..7]).into()),
        0..=18 => Some(shown(digits).into()),
        _ => None,
    }
}

fn in_reach(value: i128) -> bool {
    match value {
        1_000_001 if on(Plant::FieldReach) => true,
        -1_000_001 if on(Plant::FieldReachBelow) => true,
        1_000_000 if on(Plant::FieldReachShort) => false,
        -1_000_000 if on(Plant::FieldReachShortBelow) => false,
        _ => (-REACH..=REACH).contains(&value),
    }
}

/// The corners of a text, or its refusal: 31, 32, 33, in that order. In a text that is valid under book B every number is one of a corner, and they
/// stand there in the corners' order.
pub fn read(book: &Book, text: &[u8]) -> Field {
    let numbers = text::numbers(text, LEVELS);
    let coordinates: Vec<Option<i128>> = numbers.iter().map(|number| coordinate(number)).collect();
    let pairs = || coordinates.chunks_exact(2);
    let corners: Option<Vec<Corner>> = pairs().map(|pair| Some((pair[0]?, pair[1]?))).collect();
    let count = pairs().count();
    let least = if on(Plant::FieldTwo) { LEAST - 1 } else { LEAST };
    let most = MOST + usize::from(on(Plant::FieldMore)) - usize::from(on(Plant::FieldLess));
    let corners = match verdict(book, &Part { bytes: text, head: false, read: 0 }, LEVELS) {
        Verdict::Valid if on(Plant::FieldCountLater) && corners.is_none() => Err(33),
        Verdict::Valid if count < least || count > most => Err(32),
        Verdict::Valid => corners.ok_or(33),
        _ => Err(31),
    };
    let rest = pairs().map(|pair| (pair[0].unwrap_or(0), pair[1].unwrap_or(0))).take(MOST).collect();
    Field { corners: corners.map(planted), standing: count, rest }
}

/// What planted faults make of the corners.
fn planted(mut corners: Vec<Corner>) -> Vec<Corner> {
    if on(Plant::FieldRing) && corners.len() > LEAST && corners.first() == corners.last() {
        corners.pop();
    }
    if on(Plant::FieldRepeats) {
        corners.dedup();
    }
    corners
}

impl Field {
    /// What fieldtext_corners gives: the number of corners, and the refusal; one of them is 0.
    pub fn count(&self) -> (usize, u32) {
        self.corners.as_ref().map_or_else(|&number| (0, number), |corners| (corners.len(), 0))
    }

    /// What fieldtext_locate gives: where the point lies, or a refusal, and the nearest corner.
    pub fn answer(&self, point: Corner) -> (u32, usize) {
        let far = !point_in_reach(point);
        match &self.corners {
            Err(31) if far && on(Plant::FieldPointFirst) => (33, 0),
            Err(32) if far && on(Plant::FieldPointSecond) => (33, 0),
            Err(number) => (*number, 0),
            Ok(corners) if far && on(Plant::FieldNearest) => (33, nearest(corners, point)),
            Ok(_) if far => (33, 0),
            Ok(corners) => (place(corners, point), nearest(corners, point)),
        }
    }

    /// The lent numbers afterwards: those of the corners, and zeros behind them. A refused text or corner leaves zeros alone.
    pub fn memory(&self, point: Option<Corner>, before: &[i32]) -> Vec<i32> {
        let far = point.is_some_and(|point| !point_in_reach(point));
        let left: &[Corner] = match &self.corners {
            Err(31) if on(Plant::FieldLeft31) => &self.rest,
            Err(32) if on(Plant::FieldLeft32) => &self.rest,
            Err(33) if on(Plant::FieldLeft33) || far && on(Plant::FieldPointThird) => &self.rest,
            Err(_) => &[],
            Ok(_) if far && on(Plant::FieldPointClears) => &[],
            Ok(corners) => corners,
        };
        let mut memory = if on(Plant::FieldBehind) { before.to_vec() } else { vec![0; before.len()] };
        for (number, &coordinate) in memory.iter_mut().zip(left.iter().flat_map(|(x, y)| [x, y])) {
            *number = coordinate as i32;
        }
        memory
    }
}

pub fn point_in_reach((x, y): Corner) -> bool {
    if on(Plant::FieldPointWraps) {
        return [x, y].iter().all(|&value| i128::from((value as i32).wrapping_abs()) <= REACH);
    }
    [x, y].iter().all(|&value| (-REACH..=REACH).contains(&value) || on(Plant::FieldPointReach) && value == REACH + 1)
}

/// From each corner to the next, and from the last one to the first.
fn segments(corners: &[Corner], closed: bool) -> impl Iterator<Item = (Corner, Corner)> + '_ {
    let next = corners.iter().skip(1).chain(corners.first().filter(|_| closed));
    corners.iter().copied().zip(next.copied())
}

fn place(corners: &[Corner], point: Corner) -> u32 {
    if segments(corners, !on(Plant::FieldOpenEdge)).any(|(a, b)| on_segment(a, b, point)) {
        return EDGE;
    }
    if on(Plant::FieldWinding) {
        return u32::from(segments(corners, true).filter(|&(a, b)| crosses(a, b, point)).map(|(a, b)| (b.1 - a.1).signum()).sum::<i128>() != 0);
    }
    let crossed = segments(corners, !on(Plant::FieldOpen)).filter(|&(a, b)| crosses(a, b, point)).count();
    if crossed % 2 == 1 { INSIDE } else { OUTSIDE }
}

/// The point is a + t (b - a) for some fraction t from 0 to 1.
fn on_segment(a: Corner, b: Corner, point: Corner) -> bool {
    let (way, gone) = ((b.0 - a.0, b.1 - a.1), (point.0 - a.0, point.1 - a.1));
    let t = match way {
        (0, 0) => return point == a,
        (0, height) => Fraction::new(gone.1, height),
        (width, _) => Fraction::new(gone.0, width),
    };
    let between = t.compare(0).is_ge() && t.compare(1).is_le();
    let there = [(gone.0, way.0), (gone.1, way.1)].iter().all(|(gone, way)| gone * t.lower == way * t.upper);
    if on(Plant::FieldProducts) {
        return between && way.0.wrapping_mul(gone.1) as i32 == way.1.wrapping_mul(gone.0) as i32;
    }
    there && (between || on(Plant::FieldLine))
}

/// Exactly one end lies above the point's height, and the segment crosses that height to the right of the point.
fn crosses(a: Corner, b: Corner, point: Corner) -> bool {
    let height = point.1;
    let reaches = match (a.1.min(b.1), a.1.max(b.1)) {
        (low, high) if on(Plant::FieldEnds) => low <= height && height <= high && low < high,
        (low, high) if on(Plant::FieldNoEnds) => low < height && height < high,
        (low, high) => (high > height) != (low > height),
    };
    if !reaches {
        return false;
    }
    let rise = b.1 - a.1;
    let product = (height - a.1) * (b.0 - a.0);
    let product = if on(Plant::FieldCrossing) { (product as i32).into() } else { product };
    let crossing = Fraction::new(a.0 * rise + product, rise);
    crossing.compare(point.0).is_gt() || on(Plant::FieldLeft)
}

/// The number of the corner with the least squared distance; of several the lowest.
fn nearest(corners: &[Corner], point: Corner) -> usize {
    let distance = |&(x, y): &Corner| {
        let (across, along) = ((x - point.0).abs(), (y - point.1).abs());
        match () {
            _ if on(Plant::FieldSum) => across + along,
            _ if on(Plant::FieldSquare) => i128::from((across * across + along * along) as u32),
            _ => across * across + along * along,
        }
    };
    let least = corners.iter().map(distance).min();
    let is_least = |corner: &Corner| Some(distance(corner)) == least;
    let found = if on(Plant::FieldTie) { corners.iter().rposition(is_least) } else { corners.iter().position(is_least) };
    found.unwrap_or(0)
}
