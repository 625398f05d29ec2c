//! The paper, part eight: the numbers of a text, and when the value of one is whole (docs/REQUIREMENT.md, section 4). All digits before and
//! after the point are read as one number, the exponent as another, and the value is whole where a division by a power of ten leaves nothing.

use crate::plant::{on, Plant};

pub const CLASSES: usize = 20;

/// A number from 0 up, of any size: its decimal digits, the lowest first, and the highest is not 0.
#[derive(PartialEq, Eq)]
struct Big(Vec<u8>);

impl Big {
    fn new(mut digits: Vec<u8>) -> Big {
        digits.truncate(digits.iter().rposition(|&digit| digit > 0).map_or(0, |highest| highest + 1));
        Big(digits)
    }

    /// What digits show, the highest of them written first.
    fn shown(written: &[u8]) -> Big {
        Big::new(written.iter().rev().map(|letter| letter - b'0').collect())
    }

    fn of(number: usize) -> Big {
        Big::shown(number.to_string().as_bytes())
    }

    fn is_zero(&self) -> bool {
        self.0.is_empty()
    }

    fn digit(&self, at: usize) -> u8 {
        self.0.get(at).copied().unwrap_or(0)
    }

    fn plus(&self, other: &Big) -> Big {
        let (mut digits, mut carry) = (Vec::new(), 0);
        for at in 0..=self.0.len().max(other.0.len()) {
            let sum = self.digit(at) + other.digit(at) + carry;
            digits.push(sum % 10);
            carry = sum / 10;
        }
        Big::new(digits)
    }

    /// None where the other number is above this one.
    fn minus(&self, other: &Big) -> Option<Big> {
        let (mut digits, mut borrow) = (Vec::new(), 0);
        for at in 0..self.0.len().max(other.0.len()) {
            let less = 10 + self.digit(at) - other.digit(at) - borrow;
            digits.push(less % 10);
            borrow = 1 - less / 10;
        }
        (borrow == 0).then(|| Big::new(digits))
    }

    /// None where it does not fit.
    fn small(&self) -> Option<usize> {
        self.0.iter().rev().try_fold(0usize, |number, &digit| number.checked_mul(10)?.checked_add(digit.into()))
    }

    /// What a division by 10 to this power leaves: the number that as many of the lowest digits show.
    fn remainder(&self, power: &Big) -> Big {
        let count = power.small().unwrap_or(usize::MAX).min(self.0.len());
        Big::new(self.0[..count].to_vec())
    }

    /// How many zeros stand after the last other digit.
    fn zeros(&self) -> usize {
        self.0.iter().take_while(|&&digit| digit == 0).count()
    }

    /// Planted faults only: what is left in so many bits.
    fn wrapped(&self, bits: u32) -> Big {
        let number = self.0.iter().rev().fold(0u64, |number, &digit| number.wrapping_mul(10).wrapping_add(digit.into()));
        Big::of((number & u64::MAX >> (64 - bits)) as usize)
    }

    /// Planted faults only: what is kept of it where no digit is taken once it is above a bound.
    fn kept(&self, bound: usize) -> Big {
        Big::of(self.0.iter().rev().fold(0, |kept, &digit| if kept > bound { kept } else { 10 * kept + usize::from(digit) }))
    }
}

/// A number as it is written: digits before and after the point, and those of the exponent.
pub struct Written<'a> {
    before: &'a [u8],
    after: Option<&'a [u8]>,
    exponent: Option<&'a [u8]>,
    negative: bool,
}

/// The bytes before and after the first byte of some.
fn split<'a>(bytes: &'a [u8], at: &[u8]) -> (&'a [u8], Option<&'a [u8]>) {
    match bytes.iter().position(|byte| at.contains(byte)) {
        Some(place) => (&bytes[..place], Some(&bytes[place + 1..])),
        None => (bytes, None),
    }
}

impl Written<'_> {
    /// The bytes are those of a number, or of one that breaks off.
    pub fn new(bytes: &[u8]) -> Written<'_> {
        let (digits, exponent) = split(bytes.strip_prefix(b"-").unwrap_or(bytes), b"eE");
        let (before, after) = split(digits, b".");
        let sign = exponent.and_then(|exponent| exponent.first().copied()).filter(|byte| b"+-".contains(byte));
        let exponent = exponent.map(|exponent| &exponent[usize::from(sign.is_some())..]);
        Written { before, after, exponent, negative: sign == Some(b'-') && !on(Plant::ExponentSign) }
    }

    /// All digits before and after the point, read as one number.
    fn mantissa(&self) -> Big {
        Big::shown(&[self.before, self.after.unwrap_or(b"")].concat())
    }

    /// How many digits stand after the point.
    fn places(&self) -> Big {
        Big::of(match self.after.unwrap_or(b"").len() {
            count if on(Plant::FirstPlace) => count.saturating_sub(1),
            count if on(Plant::PlacesWrap) => count % 65_536,
            count => count,
        })
    }

    /// The size of the exponent; 0 where there is none.
    fn exponent(&self) -> Big {
        let digits = self.exponent.unwrap_or(b"");
        let exponent = Big::shown(digits);
        match () {
            _ if on(Plant::ExponentWraps16) => exponent.wrapped(16),
            _ if on(Plant::ExponentWraps32) => exponent.wrapped(32),
            _ if on(Plant::ExponentWraps64) => exponent.wrapped(64),
            _ if on(Plant::ExponentStops) => Big::of(exponent.small().unwrap_or(usize::MAX).min(100_000)),
            _ if on(Plant::ExponentCut) => Big::shown(&digits[..digits.len().min(10)]),
            _ if on(Plant::ExponentKept) => exponent.kept(100_000),
            _ if on(Plant::MinusZero) && self.negative && exponent.is_zero() => Big::of(1),
            _ => exponent,
        }
    }

    /// The power of ten that the mantissa is divided by; none where it is multiplied by one.
    fn power(&self) -> Option<Big> {
        if self.negative { Some(self.places().plus(&self.exponent())) } else { self.places().minus(&self.exponent()) }
    }

    /// The value is whole: the division leaves nothing.
    pub fn whole(&self) -> bool {
        let (mantissa, power) = (self.mantissa(), self.power());
        let whole = power.as_ref().map_or(true, |power| mantissa.remainder(power).is_zero());
        self.planted(whole, &mantissa, &power.unwrap_or(Big::of(0)))
    }

    /// What planted faults make of the answer.
    fn planted(&self, whole: bool, mantissa: &Big, power: &Big) -> bool {
        let (point, letter) = (self.after.is_some(), self.exponent.is_some());
        let places = self.after.unwrap_or(b"").len();
        let enough = |zeros: usize| mantissa.is_zero() || Big::of(zeros).minus(power).is_some();
        match () {
            _ if on(Plant::IntDigits) => whole && !point && !letter,
            _ if on(Plant::IntPoint) => whole && !point,
            _ if on(Plant::IntExponent) => whole && !letter,
            _ if on(Plant::IntZero) => whole && !(mantissa.is_zero() && self.negative),
            _ if on(Plant::IntAny) => true,
            _ if on(Plant::ZerosBefore) => enough(mantissa.zeros().min(places)),
            _ if on(Plant::ZerosAfter) => enough(if point { 0 } else { mantissa.zeros() }),
            _ if on(Plant::ZerosInside) => enough(mantissa.0.iter().filter(|&&digit| digit == 0).count()),
            _ if on(Plant::ZerosWrap) => enough(mantissa.zeros() % 65_536),
            _ => whole,
        }
    }

    /// The classes of numbers by an example of each, and whether this number is of it.
    pub fn classes(&self) -> [(&'static str, bool); CLASSES] {
        let (mantissa, exponent, power) = (self.mantissa(), self.exponent(), self.power());
        let (whole, point, letter) = (self.whole(), self.after.is_some(), self.exponent.is_some());
        let (raised, lowered) = (letter && !self.negative, letter && self.negative);
        let short = power.and_then(|power| power.small()?.checked_sub(mantissa.zeros())).filter(|_| !mantissa.is_zero() && (point || letter));
        let (far, long) = (exponent.0.len() > 20, mantissa.0.len() > 100_000);
        [
            ("1", !point && !letter),
            ("1.0", point && !letter && whole),
            ("1.5", point && !letter && !whole),
            ("1e2", !point && raised),
            ("100e-2", !point && lowered && whole),
            ("15e-1", !point && lowered && !whole),
            ("1.50e1", point && raised && whole),
            ("1.05e1", point && raised && !whole),
            ("10.0e-1", point && lowered && whole),
            ("1.0e-1", point && lowered && !whole),
            ("0e-5", mantissa.is_zero() && lowered),
            ("e-0", lowered && exponent.is_zero()),
            ("e-01", self.exponent.is_some_and(|digits| digits.len() > 1 && digits[0] == b'0')),
            ("no zero more", short == Some(0)),
            ("a zero short", short == Some(1)),
            ("1e(10^20)", raised && far),
            ("1e-(10^20)", lowered && far && !whole),
            ("0e-(10^20)", lowered && far && whole),
            ("long, whole", long && whole && (point || letter)),
            ("long, not", long && !whole),
        ]
    }
}
