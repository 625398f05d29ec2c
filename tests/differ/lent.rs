//! What is lent to the library: values in the middle of a larger buffer, with others on both sides.

use crate::rng::noise;

/// Values on each side of what is lent, at least.
const MARGIN: usize = 128;

/// Kinds of values that are lent, and as many of them by chance.
pub trait Noise: Copy + PartialEq {
    fn noise(seed: u64, length: usize) -> Vec<Self>;
}

impl Noise for u8 {
    fn noise(seed: u64, length: usize) -> Vec<u8> {
        noise(seed, length)
    }
}

impl Noise for i32 {
    fn noise(seed: u64, length: usize) -> Vec<i32> {
        noise(seed, 4 * length).chunks_exact(4).map(|bytes| i32::from_le_bytes(bytes.try_into().expect("four bytes"))).collect()
    }
}

impl Noise for usize {
    fn noise(seed: u64, length: usize) -> Vec<usize> {
        noise(seed, 8 * length).chunks_exact(8).map(|bytes| u64::from_le_bytes(bytes.try_into().expect("eight bytes")) as usize).collect()
    }
}

/// Values to lend, with others around them.
pub struct Lent<T> {
    pub all: Vec<T>,
    pub before: Vec<T>,
    behind: Vec<T>,
}

impl<T: Noise> Lent<T> {
    pub fn new(values: &[T], seed: u64) -> Lent<T> {
        let before = T::noise(seed, MARGIN + (seed % 16) as usize);
        let behind = T::noise(!seed, MARGIN);
        Lent { all: [&before, values, &behind].concat(), before, behind }
    }

    /// As many values by chance, to be written over.
    pub fn of_noise(length: usize, seed: u64) -> Lent<T> {
        Lent::new(&T::noise(seed, length), seed ^ 1)
    }

    pub fn length(&self) -> usize {
        self.all.len() - self.before.len() - self.behind.len()
    }

    pub fn values(&self) -> &[T] {
        &self.all[self.before.len()..][..self.length()]
    }

    pub fn start(&self) -> *const T {
        self.values().as_ptr()
    }

    pub fn start_mut(&mut self) -> *mut T {
        self.all[self.before.len()..].as_mut_ptr()
    }

    /// True where the values around are as they were.
    pub fn whole(&self) -> bool {
        self.all.starts_with(&self.before) && self.all.ends_with(&self.behind)
    }
}
