//! Makes tracks over a field: none, one or many of its points and others, with points out of range at any place.

use crate::make_field::{out_of_range, point, Point};
use crate::rng::Rng;

/// Lengths around the most corners of a field, and above.
const LONG: &[usize] = &[1023, 1024, 1025, 1026, 2048, 2500];
/// A length that 16 bits do not hold.
const LONGEST: usize = (1 << 16) + 3;

/// All of the points in some order, perhaps with others out of range among them.
pub fn of_all(rng: &mut Rng, points: &[Point]) -> Vec<Point> {
    let mut track = points.to_vec();
    rng.shuffle(&mut track);
    put_out(rng, &mut track);
    track
}

/// Points by chance, of those given and others; the corners one after the other; or none in range.
pub fn by_chance(rng: &mut Rng, points: &[Point], corners: &[Point]) -> Vec<Point> {
    let mut track = match rng.below(20) {
        0 => corners.to_vec(),
        1 => (0..rng.range(1, 12)).map(|_| out_of_range(rng, points[0])).collect(),
        _ => some(rng, points, corners),
    };
    if !track.is_empty() {
        put_out(rng, &mut track);
    }
    track
}

/// Points by chance, often of those given; in the longest tracks of those alone.
fn some(rng: &mut Rng, points: &[Point], corners: &[Point]) -> Vec<Point> {
    let length = length(rng);
    let others = if length < LONGEST { 30 } else { 0 };
    (0..length).map(|_| if rng.chance(others) { point(rng, corners) } else { *rng.pick(points) }).collect()
}

fn length(rng: &mut Rng) -> usize {
    match rng.below(200) {
        0 => LONGEST + rng.below(100),
        1..=4 => *rng.pick(LONG),
        5..=14 => 0,
        15..=24 => 1,
        _ => rng.range(2, 24),
    }
}

/// Half of the time, points out of range in front, at the end or anywhere.
fn put_out(rng: &mut Rng, track: &mut Vec<Point>) {
    let count = if rng.chance(50) { rng.range(1, 3) } else { 0 };
    for _ in 0..count {
        let at = match rng.below(4) {
            0 => 0,
            1 => track.len(),
            _ => rng.below(track.len() + 1),
        };
        let near = *rng.pick(track);
        track.insert(at, out_of_range(rng, near));
    }
}
