//! How many points of fields, and how many tracks, fell on each class.

use crate::field::{corner, point_in_reach, Field, MOST};
use crate::make_field::Point;

const POINTS: [&str; 12] = [
    "outside", "inside", "edge", "31", "32, too few", "32, too many", "33, corner", "33, point", "31, point too", "32, point too", "33, point too",
    "1,024 corners",
];

/// A class of tracks: its name, and whether a track falls on it, by the refusal of its text.
type TrackClass = (&'static str, fn(u32, &[Point]) -> bool);
const TRACKS: [TrackClass; 14] = [
    ("31", |refusal, _| refusal == 31),
    ("32", |refusal, _| refusal == 32),
    ("33", |refusal, _| refusal == 33),
    ("empty, refused", |refusal, track| refusal > 0 && track.is_empty()),
    ("empty", |refusal, track| refusal == 0 && track.is_empty()),
    ("one point", |refusal, track| refusal == 0 && track.len() == 1),
    ("all in range", |refusal, track| refusal == 0 && !track.is_empty() && !track.iter().any(out)),
    ("none in range", |refusal, track| refusal == 0 && !track.is_empty() && track.iter().all(out)),
    ("first out", |refusal, track| refusal == 0 && ends_out(track) == (true, false)),
    ("last out", |refusal, track| refusal == 0 && ends_out(track) == (false, true)),
    ("between out", |refusal, track| refusal == 0 && ends_out(track) == (false, false) && track.iter().any(out)),
    ("1,024 points", |refusal, track| refusal == 0 && track.len() == MOST),
    ("above 1,024", |refusal, track| refusal == 0 && track.len() > MOST),
    ("above 65,536", |refusal, track| refusal == 0 && track.len() > 1 << 16),
];

fn out(point: &Point) -> bool {
    !point_in_reach(corner(*point))
}

/// Whether the first point is out of range, and whether the last one is.
fn ends_out(track: &[Point]) -> (bool, bool) {
    (track.first().is_some_and(out), track.last().is_some_and(out))
}

#[derive(Default)]
pub struct Classes {
    /// Points by themselves, tracks, and the points of tracks.
    pub points: u64,
    pub tracks: u64,
    pub on_tracks: u64,
    of_points: [u64; POINTS.len()],
    of_tracks: [u64; TRACKS.len()],
}

impl Classes {
    pub fn count(&mut self, field: &Field, point: Point) {
        let bad = out(&point);
        let class = match field.corners {
            Err(31) => if bad { 8 } else { 3 },
            Err(32) if bad => 9,
            Err(32) => if field.standing < MOST { 4 } else { 5 },
            Err(_) => if bad { 10 } else { 6 },
            Ok(_) if bad => 7,
            Ok(_) => field.answer(corner(point)).0 as usize,
        };
        self.points += 1;
        self.of_points[class] += 1;
        self.of_points[11] += u64::from(field.count().0 == MOST);
    }

    pub fn count_track(&mut self, field: &Field, track: &[Point]) {
        let (_, refusal) = field.count();
        self.tracks += 1;
        self.on_tracks += track.len() as u64;
        for (count, (_, falls)) in self.of_tracks.iter_mut().zip(TRACKS) {
            *count += u64::from(falls(refusal, track));
        }
    }

    /// Prints the classes; gives the number of those that nothing fell on.
    pub fn print(&self) -> usize {
        for (name, count) in POINTS.iter().zip(self.of_points) {
            println!("field  {name:<14}{count:>10}");
        }
        for ((name, _), count) in TRACKS.iter().zip(self.of_tracks) {
            println!("track  {name:<14}{count:>10}");
        }
        self.of_points.iter().chain(&self.of_tracks).filter(|&&count| count == 0).count()
    }
}
