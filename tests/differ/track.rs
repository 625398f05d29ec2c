//! The paper, part ten: a track, a list of points with room for an answer to each (include/fieldtext.h). The text is judged once, and each entry has
//! what its point gets alone.

use crate::field::{corner, point_in_reach, Corner, Field, MOST, REACH};
use crate::plant::{on, Plant};
use std::ops::Range;

/// An entry: x, y, the answer, and the number of the nearest corner.
pub type Entry = [i32; 4];

fn point(entry: &Entry) -> Corner {
    corner((entry[0], entry[1]))
}

fn far(entry: &Entry) -> bool {
    !point_in_reach(point(entry))
}

/// What fieldtext_track gives: 0, or the refusal of the text.
pub fn given(field: &Field, track: &[Entry]) -> u32 {
    let some = track.iter().any(far);
    match field.count().1 {
        _ if on(Plant::TrackEmpty) && track.is_empty() => 0,
        0 if on(Plant::TrackGiven) && some => 33,
        0 if on(Plant::TrackAllGiven) && some && track.iter().all(far) => 33,
        31 | 32 if on(Plant::TrackPointFirst) && some => 33,
        refusal => refusal,
    }
}

/// The track afterwards: an answer in each entry, or no byte written where the text is refused.
pub fn after(field: &Field, before: &[Entry]) -> Vec<Entry> {
    let unanswered = unanswered(before);
    let entry = |i| match field.corners {
        Err(number) => refused(before[i], number),
        Ok(_) if unanswered.contains(&i) => before[i],
        Ok(_) => answered(field, before, i),
    };
    (0..before.len()).map(entry).collect()
}

/// The lent numbers of corners afterwards, which are those that fieldtext_corners leaves.
pub fn memory(field: &Field, track: &[Entry], before: &[i32]) -> Vec<i32> {
    match () {
        _ if on(Plant::TrackClears) && track.iter().any(far) => vec![0; before.len()],
        _ if on(Plant::TrackEmptyLeaves) && track.is_empty() => before.to_vec(),
        _ => field.memory(None, before),
    }
}

/// Planted faults only: the entries that are not answered, though the text is accepted.
fn unanswered(track: &[Entry]) -> Range<usize> {
    let count = track.len();
    let first_far = track.iter().position(far).unwrap_or(count);
    match () {
        _ if on(Plant::TrackStops) => first_far + 1..count,
        _ if on(Plant::TrackWhole) && first_far < count => 0..count,
        _ if on(Plant::TrackFirst) => 0..1,
        _ if on(Plant::TrackLast) => count.saturating_sub(1)..count,
        _ if on(Plant::TrackMost) => MOST..count,
        _ if on(Plant::TrackWraps) => count % (1 << 16)..count,
        _ => 0..0,
    }
}

fn refused([x, y, answer, nearest]: Entry, number: u32) -> Entry {
    match () {
        _ if on(Plant::TrackZeros) => [x, y, 0, 0],
        _ if on(Plant::TrackNumber) => [x, y, number as i32, 0],
        _ => [x, y, answer, nearest],
    }
}

fn answered(field: &Field, before: &[Entry], i: usize) -> Entry {
    let said = |i: usize| field.answer(point(&before[i]));
    let (answer, nearest) = match () {
        _ if on(Plant::TrackNext) => said((i + 1) % before.len()),
        _ if on(Plant::TrackReversed) => said(before.len() - 1 - i),
        _ if on(Plant::TrackTurned) => field.answer(corner((before[i][1], before[i][0]))),
        _ if on(Plant::TrackCarried) && i > 0 && far(&before[i]) => (33, said(i - 1).1),
        _ => said(i),
    };
    let (answer, nearest) = (answer as i32, nearest as i32);
    let [x, y, old_answer, old_nearest] = before[i];
    let reach = REACH as i32;
    match () {
        _ if on(Plant::TrackSame) && i > 0 && point(&before[i - 1]) == point(&before[i]) => before[i],
        _ if on(Plant::TrackNearest) && answer == 33 => [x, y, answer, old_nearest],
        _ if on(Plant::TrackByte) => [x, y, old_answer & !0xFF | answer, nearest],
        _ if on(Plant::TrackTwoBytes) => [x, y, answer, old_nearest & !0xFFFF | nearest],
        _ if on(Plant::TrackPoint) => [0, 0, answer, nearest],
        _ if on(Plant::TrackMoved) => [x.clamp(-reach, reach), y.clamp(-reach, reach), answer, nearest],
        _ => [x, y, answer, nearest],
    }
}
