//! Makes numbers: some whose value is whole, however they are written, and some whose value is not, often for want of a single zero.

use crate::rng::Rng;
use crate::stream::LONGEST;

/// Numbers written by hand: whole and not, with a point, an exponent, both or neither.
pub const LISTED: [&str; 86] = [
    "0", "-0", "1", "-7", "120", "0.0", "-0.0", "1.0", "-1.00", "1.5", "0.5", "10.5", "1.01", "100.001", "1e0", "1e-0", "1E+2", "1e2", "5e-000",
    "0e-5", "0E-0", "0e+9", "-0e-1", "0.0e-1", "0.00e1", "10e-1", "10e-2", "10e-01", "10e-02", "100e-2", "100e-3", "100.0e-2", "100.0e-3",
    "120e-1", "120e-2", "15e-1", "150e-1", "1050e-1", "1050e-2", "1e-1", "1.0e-1", "10.0e-1", "10.0e-2", "1.50e1", "1.05e1", "1.05e2", "1.05e3",
    "0.10e1", "0.01e1", "0.01e2", "0.010e2", "10.50e0", "10.50e1", "20.0e-1", "20.00e-0001", "1.5e1", "1.5E01", "1.5e00", "1.5e-1", "15.0e-1",
    "1e65536", "1e-65536", "10e-65537", "1.5e65536", "1.5e65537", "1e4294967296", "1e-4294967296", "10e-4294967297", "1.5e4294967296",
    "10e-18446744073709551617", "1.5e18446744073709551616", "1e-256", "10e-257", "10e-2147483649", "10e-9223372036854775809",
    "0e-99999999999999999999999", "0.00e99999999999999999999999", "1e99999999999999999999999", "1e-99999999999999999999999",
    "123456789012345678901234567890", "123456789012345678901234567890.0", "12345678901234567890123456789.5", "0.000000000000000000000000000001e30",
    "0.000000000000000000000000000001e29", "1000000000000000000000000000000e-30", "1000000000000000000000000000000e-31",
];

/// The exponent is below 0, and its size in digits.
type Exponent = (bool, Vec<u8>);

fn exponent_of(number: i64) -> Exponent {
    (number < 0, number.unsigned_abs().to_string().into_bytes())
}

/// Any number.
pub fn number(rng: &mut Rng) -> Vec<u8> {
    match rng.below(4) {
        0 => rng.pick(&LISTED).as_bytes().to_vec(),
        1 => unwhole_number(rng),
        _ => whole_number(rng),
    }
}

/// A number whose value is whole.
pub fn whole_number(rng: &mut Rng) -> Vec<u8> {
    let zeros = zeros(rng);
    if rng.chance(10) {
        let size = if rng.chance(20) { far(rng, zeros) } else { rng.below(10).to_string().into_bytes() };
        let (places, negative) = (places(rng, zeros), rng.chance(50));
        return written(rng, b"", places, (negative, size));
    }
    let ones = ones(rng);
    let places = places(rng, ones.len() + zeros);
    let exponent = match rng.below(20) {
        0 => (false, far(rng, places)),
        1..=6 => exponent_of(0),
        7..=11 => exponent_of(places as i64 - zeros as i64),
        12..=14 => exponent_of(places as i64 - rng.below(zeros + 1) as i64),
        _ => exponent_of((places + rng.below(4)) as i64),
    };
    let places = if exponent == exponent_of(0) { places.min(zeros) } else { places };
    written(rng, &[ones, vec![b'0'; zeros]].concat(), places, exponent)
}

/// A number whose value is not whole.
pub fn unwhole_number(rng: &mut Rng) -> Vec<u8> {
    let (ones, zeros) = (ones(rng), zeros(rng));
    let places = places(rng, ones.len() + zeros);
    let exponent = match rng.below(20) {
        0 => (true, far(rng, zeros)),
        1..=5 => exponent_of(0),
        6..=13 => exponent_of(places as i64 - zeros as i64 - 1),
        _ => exponent_of(places as i64 - zeros as i64 - rng.range(1, 6) as i64),
    };
    let places = if exponent == exponent_of(0) { places.max(zeros + 1) } else { places };
    written(rng, &[ones, vec![b'0'; zeros]].concat(), places, exponent)
}

/// Digits that do not end with a zero.
fn ones(rng: &mut Rng) -> Vec<u8> {
    let length = if rng.chance(1) { rng.range(1, 2000) } else { rng.range(0, 3) };
    let mut digits: Vec<u8> = (0..length).map(|_| *rng.pick(b"0123456789")).collect();
    digits.push(*rng.pick(b"123456789"));
    digits.drain(..digits.iter().take_while(|&&digit| digit == b'0').count());
    digits
}

fn zeros(rng: &mut Rng) -> usize {
    match rng.below(200) {
        0 => rng.below(3000),
        1..=10 => rng.below(40),
        11..=99 => rng.range(1, 4),
        _ => 0,
    }
}

/// How many of so many digits stand after the point, or a few more than there are.
fn places(rng: &mut Rng, digits: usize) -> usize {
    match rng.below(5) {
        0 | 1 => 0,
        2 => rng.range(1, 3),
        _ => rng.below(digits + 3),
    }
}

/// The digits of an exponent far above the number of digits; most are such that few of their bits show a number up to about `near`.
fn far(rng: &mut Rng, near: usize) -> Vec<u8> {
    if rng.chance(90) {
        let bits = *rng.pick(&[16, 16, 24, 31, 32, 32, 48, 63, 64, 64, 100]);
        return ((1u128 << bits) + rng.below(near + 2) as u128).to_string().into_bytes();
    }
    let length = if rng.chance(10) { rng.range(21, 4000) } else { rng.range(21, 60) };
    (0..length).map(|at| if at == 0 { b'9' } else { *rng.pick(b"0123456789") }).collect()
}

/// The digits, so many of them after the point that zeros may have to stand before them, and the exponent.
fn written(rng: &mut Rng, digits: &[u8], places: usize, (negative, size): Exponent) -> Vec<u8> {
    let mut number = if rng.chance(30) { vec![b'-'] } else { Vec::new() };
    number.extend(vec![b'0'; (places + 1).saturating_sub(digits.len())]);
    number.extend_from_slice(digits);
    if places > 0 {
        number.insert(number.len() - places, b'.');
    }
    let zero = size == b"0";
    if zero && rng.chance(50) {
        return number;
    }
    number.push(*rng.pick(b"eE"));
    match rng.below(3) {
        _ if negative || zero && rng.chance(50) => number.push(b'-'),
        0 => number.push(b'+'),
        _ => {}
    }
    if rng.chance(20) {
        let count = if rng.chance(2) { rng.below(4000) } else { rng.range(1, 12) };
        number.extend(vec![b'0'; count]);
    }
    number.extend_from_slice(&size);
    number
}

/// Numbers of some hundred thousand digits, and exponents of thousands.
pub fn long_numbers() -> Vec<Vec<u8>> {
    let some = |digit: &str, count: usize| digit.repeat(count);
    let (zeros, most) = (some("0", 200_000), some("0", 199_999));
    let (sevens, nines, front) = (some("7", 100_001), some("9", 5000), some("0", 5000));
    let texts = [
        format!("1{zeros}e-199999"), format!("1{zeros}e-200000"), format!("1{zeros}e-200001"), format!("-1{zeros}.00e-0200000"),
        format!("1{zeros}.00e-200001"), format!("1.{zeros}"), format!("1.{most}1"), format!("1.5{most}"), format!("0.{zeros}"),
        format!("-0.{zeros}e-200000"), format!("0.{most}1e200000"), format!("0.{most}1e199999"), format!("0.{most}10e200000"),
        format!("{sevens}.0"), format!("{sevens}.5"), format!("{sevens}.{sevens}e100001"), format!("{sevens}.{sevens}e100000"),
        format!("{sevens}0e-1"), format!("{sevens}0e-2"), format!("1e-{front}"), format!("1e-{front}1"), format!("10e-{front}1"),
        format!("1e{nines}"), format!("10e-{nines}"), format!("0e-{nines}"), format!("0.0e-{nines}"), format!("1.5E+{nines}"),
        format!("1{}e-65536", some("0", 65_536)), format!("1{}e-65537", some("0", 65_536)), format!("1{zeros}e-1{}", some("0", 100_000)),
        format!("1{zeros}e-2000000"), format!("0.{most}1e1999990"),
    ];
    texts.map(String::into_bytes).to_vec()
}

/// An array of one number in 16,777,216 bytes: the digit `fill` over and over between `start` and `end`.
fn filled(start: &str, fill: u8, end: &str) -> Vec<u8> {
    let (start, end) = (format!("\x1E[{start}"), format!("{end}]"));
    [start.as_bytes(), &vec![fill; LONGEST + 1 - start.len() - end.len()], end.as_bytes()].concat()
}

/// The number of streams with a number that fills the longest record.
pub const LONGEST_NUMBERS: u64 = 12;

/// Such a record for each number `which`; the number in it is whole where `which` is even. The last two would be otherwise with the last digit of
/// their exponents dropped.
pub fn longest_number(which: u64) -> Vec<u8> {
    match which {
        0 => filled("1", b'0', "e-16777203"),
        1 => filled("1", b'0', "e-16777204"),
        2 => filled("0.", b'0', "1e16777203"),
        3 => filled("0.", b'0', "1e16777202"),
        4 => filled("10e-", b'0', "1"),
        5 => filled("10e-", b'0', "2"),
        6 => filled("0e-", b'9', ""),
        7 => filled("10e-", b'9', ""),
        8 => filled("1.", b'0', ""),
        9 => filled("1.", b'0', "1"),
        10 => filled("0.", b'0', "1e167772010"),
        _ => filled("1", b'0', "e-167772020"),
    }
}
