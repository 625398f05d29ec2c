//! The library's calls for fields: for a point, for the corners alone, for a track. All that is lent stands in the middle of larger buffers.

use crate::field::MOST;
use crate::flat::TABLE;
use crate::lent::{Lent, Noise};
use crate::make_field::Point;
use crate::plant::{on, Plant};
use crate::track::Entry;
use std::fmt;

extern "C" {
    fn fieldtext_locate(text: *const u8, text_length: usize, x: i32, y: i32, table: *mut u8, corners: *mut i32, nearest: *mut usize) -> u8;
    fn fieldtext_corners(text: *const u8, text_length: usize, table: *mut u8, corners: *mut i32, refusal: *mut u8) -> usize;
    /// An entry of a track is four numbers of four bytes each.
    fn fieldtext_track(text: *const u8, text_length: usize, track: *mut i32, track_length: usize, table: *mut u8, corners: *mut i32) -> u8;
}

const NUMBERS: usize = 2 * MOST;

/// What is asked of a text.
#[derive(Clone, Copy)]
pub enum Asked<'a> { Corners, Point(Point), Track(&'a [Point]) }

impl fmt::Display for Asked<'_> {
    fn fmt(&self, to: &mut fmt::Formatter) -> fmt::Result {
        match self {
            Asked::Corners => write!(to, "fieldtext_corners"),
            Asked::Point(point) => write!(to, "fieldtext_locate at {point:?}"),
            Asked::Track(track) => write!(to, "fieldtext_track over {} points", track.len()),
        }
    }
}

/// What a call gave, and what was lent to it.
pub struct Shown {
    /// The answer and the nearest corner, or the number of corners and the refusal, or the refusal and 0.
    pub given: (usize, usize),
    /// The numbers of the corners, before and after.
    pub corners: [Vec<i32>; 2],
    /// The entries of the track, before and after.
    pub track: [Vec<Entry>; 2],
    /// Words about bytes that are not as they must be.
    pub wrong: Option<String>,
}

/// The memory that the calls are lent.
struct Memory {
    table: Lent<u8>,
    corners: Lent<i32>,
    nearest: Lent<usize>,
    refusal: Lent<u8>,
    track: Lent<i32>,
}

impl Memory {
    fn new(seed: u64, asked: Asked) -> Memory {
        let wide = seed.wrapping_mul(16);
        Memory {
            table: Lent::of_noise(TABLE, wide),
            corners: Lent::of_noise(NUMBERS, wide ^ 2),
            nearest: Lent::of_noise(1, wide ^ 4),
            refusal: Lent::of_noise(1, wide ^ 6),
            // by the seed itself, so that a track begins at any multiple of four bytes
            track: Lent::new(&track(asked, wide ^ 8), seed),
        }
    }

    fn entries(&self) -> Vec<Entry> {
        self.track.values().chunks_exact(4).map(|entry| entry.try_into().expect("four numbers")).collect()
    }

    /// Planted faults of a library: written where nothing may be.
    fn spoil(&mut self, asked: Asked) {
        let (corners, nearest) = (self.corners.before.len() + NUMBERS, self.nearest.before.len() + 1);
        if on(Plant::CornersBehind) {
            self.corners.all[corners] ^= 1;
        }
        if on(Plant::NearestBehind) {
            self.nearest.all[nearest] ^= 1;
        }
        let (first, behind) = (self.track.before.len(), self.track.before.len() + self.track.length());
        for (plant, at) in [(Plant::TrackBefore, first - 1), (Plant::TrackBehind, behind)] {
            if on(plant) && matches!(asked, Asked::Track(_)) {
                self.track.all[at] ^= 1;
            }
        }
    }

    /// Words about what was written around the memory, or about the table.
    fn wrong(&self, table: &[u8]) -> Option<String> {
        if let Some(at) = (0..TABLE).find(|&i| self.table.values()[i] != table[i]) {
            return Some(format!("byte {at} of the table is {}, not {}", self.table.values()[at], table[at]));
        }
        let whole = [self.table.whole(), self.corners.whole(), self.nearest.whole(), self.refusal.whole(), self.track.whole()];
        let at = whole.iter().position(|whole| !whole)?;
        Some(format!("what stands around the {} was written", ["table", "corners", "nearest corner", "refusal", "track"][at]))
    }
}

/// The numbers of a track before the call: its points, and values of chance where the answers go.
fn track(asked: Asked, seed: u64) -> Vec<i32> {
    let Asked::Track(points) = asked else { return Vec::new() };
    let mut numbers = i32::noise(seed, 4 * points.len());
    for (entry, &(x, y)) in numbers.chunks_exact_mut(4).zip(points) {
        entry[..2].copy_from_slice(&[x, y]);
    }
    numbers
}

/// One call; afterwards the lent table must be the given one.
pub fn call(text: &mut Lent<u8>, bytes: &[u8], asked: Asked, seed: u64, table: &[u8]) -> Shown {
    let mut memory = Memory::new(seed, asked);
    let (corners, track) = (memory.corners.values().to_vec(), memory.entries());
    let given = given(text, asked, &mut memory);
    if on(Plant::FieldWritten) {
        let at = text.all.len() / 2;
        text.all[at] ^= 1;
    }
    memory.spoil(asked);
    let mut wrong = memory.wrong(table);
    if !text.whole() || text.values() != bytes {
        wrong.get_or_insert("the text, or bytes around it, were written".to_string());
    }
    Shown { given, corners: [corners, memory.corners.values().to_vec()], track: [track, memory.entries()], wrong }
}

fn given(text: &Lent<u8>, asked: Asked, memory: &mut Memory) -> (usize, usize) {
    let (start, length) = (text.start(), text.length());
    let (table, corners) = (memory.table.start_mut(), memory.corners.start_mut());
    // SAFETY: the text's pointer and length are those of one part of a buffer; table, corners, nearest and refusal have their lengths, the track has
    // four numbers for each point, and all of them are apart.
    unsafe {
        match asked {
            Asked::Point((x, y)) => {
                let answer = fieldtext_locate(start, length, x, y, table, corners, memory.nearest.start_mut());
                (answer.into(), memory.nearest.values()[0])
            }
            Asked::Corners => {
                let count = fieldtext_corners(start, length, table, corners, memory.refusal.start_mut());
                (count, memory.refusal.values()[0].into())
            }
            Asked::Track(points) => (fieldtext_track(start, length, memory.track.start_mut(), points.len(), table, corners).into(), 0),
        }
    }
}
