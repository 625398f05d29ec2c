//! The paper, part six: what the library writes down for each verdict (include/fieldtext.h).

use crate::plant::{on, Plant};
use crate::stream::{Found, Verdict};

pub const ENTRY: usize = 16;

pub type Entry = [u8; ENTRY];

/// Word, number, two zeros, place and bytes read, the lowest byte first.
fn entry(verdict: Verdict, read: usize) -> Entry {
    let (word, number, place) = match verdict {
        Verdict::Valid => (0, 0, 0),
        Verdict::Invalid => (1, 0, 0),
        Verdict::Refused(number, place) => (2, number as u8, place as u32),
    };
    let place = if on(Plant::PlaceShort) { place & 0xFF_FFFF } else { place };
    let mut bytes = [word, number, 0, 0, 0, 0, 0, 0, 0, 0, 0, 0, 0, 0, 0, 0];
    bytes[4..8].copy_from_slice(&place.to_le_bytes());
    bytes[8..].copy_from_slice(&(read as u64).to_le_bytes());
    bytes
}

/// An entry for each verdict, in order; one for a refused book, whose place is its line, or a refused start.
pub fn entries(found: &Found) -> Vec<Entry> {
    match found {
        Found::Book(number, line) => vec![entry(Verdict::Refused(*number, if on(Plant::BookPlace) { 0 } else { *line }), 0)],
        Found::Start(number) => vec![entry(Verdict::Refused(*number, 0), 0)],
        Found::Judged(list) => list.iter().map(|&(verdict, read)| entry(verdict, read)).collect(),
    }
}

/// How many entries there are, whatever room they have.
pub fn counted(entries: &[Entry], room: usize) -> usize {
    if on(Plant::FittingCounted) { entries.len().min(room / ENTRY) } else { entries.len() }
}

/// Writes each entry that has all of its bytes, and nothing else.
pub fn write(entries: &[Entry], out: &mut [u8]) {
    for (entry, room) in entries.iter().zip(out.chunks_mut(ENTRY)) {
        if room.len() == ENTRY || on(Plant::EntryCut) {
            room.copy_from_slice(&entry[..room.len()]);
        }
    }
}

/// An entry in words.
pub fn words(entry: Option<&[u8]>) -> String {
    let Some(entry) = entry else { return "no entry".to_string() };
    let number = |bytes: &[u8]| bytes.iter().rev().fold(0u64, |n, &byte| n << 8 | u64::from(byte));
    let (place, read) = (number(&entry[4..8]), number(&entry[8..16]));
    format!("word {} number {} zeros {} {} place {place} read {read}", entry[0], entry[1], entry[2], entry[3])
}
