//! Every first byte from 80 up with every second byte, in a string and in a key: the library and the paper against the UTF-8 decoder of Rust's own
//! library, which knows nothing of either.

use crate::book;
use crate::entries;
use crate::library::{self, By};
use crate::plant::{on, Plant};
use crate::stream::{Found, Verdict};
use crate::text::{self, Stop};
use crate::trial::Stream;

/// What stands before the two bytes: a string is open, then a key.
const BEFORE: [&[u8]; 2] = [b"\"", b"{\""];
/// The book plays no part, as no record becomes a whole text.
const BOOK: &[u8] = b"rule form state key value next\n0 obj 0 a str 1\n0 obj 1 - end -\n";
const RS: u8 = 0x1E;
const SHOWN: usize = 10;

/// True where some character begins with the bytes: they are one, or only the end is missing.
fn begins(bytes: &[u8]) -> bool {
    match std::str::from_utf8(bytes) {
        Ok(_) => true,
        Err(error) => error.valid_up_to() == 0 && error.error_len().is_none(),
    }
}

/// True where some character begins with the two bytes, or where a planted fault says so of them.
fn permitted(first: u8, second: u8) -> bool {
    let planted = [
        (Plant::PairC1, (0xC1, 0x80)),
        (Plant::PairE0, (0xE0, 0x9F)),
        (Plant::PairED, (0xED, 0xA0)),
        (Plant::PairF4, (0xF4, 0x90)),
    ];
    begins(&[first, second]) || planted.into_iter().any(|(plant, pair)| on(plant) && pair == (first, second))
}

/// The verdict of a record that ends after the two bytes: 14 where a character could go on, else 11 at the first byte after which none can. An RS ends
/// the record before it.
fn expected(before: usize, first: u8, second: u8) -> (u32, usize) {
    match (begins(&[first]) || permitted(first, second), second) {
        (false, _) => (11, before),
        (true, RS) => (14, before + 1),
        (true, _) if permitted(first, second) => (14, before + 2),
        (true, _) => (11, before + 1),
    }
}

/// The paper's verdict of the same record.
fn paper(before: &[u8], first: u8, second: u8) -> Option<(u32, usize)> {
    let mut record = [before, &[first, second]].concat();
    if second == RS {
        record.pop();
    }
    match text::whole(&record, 2) {
        Err(Stop::Fault(place)) => Some((11, place)),
        Err(Stop::End) => Some((14, record.len())),
        _ => None,
    }
}

/// Words about the library, where a call gives anything but the one entry with this verdict.
fn library_words(table: &[u8], before: &[u8], first: u8, second: u8, (number, place): (u32, usize)) -> Option<String> {
    let bytes = [&[RS], before, &[first, second]].concat();
    let entry = entries::entries(&Found::Judged(vec![(Verdict::Refused(number, place), bytes.len())]));
    let calls = vec![(0, entries::ENTRY), (1, entries::ENTRY), (2, entries::ENTRY)];
    let stream = Stream { bytes, work: 192, calls, seed: u64::from(first) << 8 | u64::from(second) };
    let shown = library::judge(By::Table(table), &stream);
    let wrong = shown.calls.iter().find(|call| call.count != 1 || call.out != entry[0]);
    shown.wrong.or_else(|| wrong.map(|call| format!("the library gives {} entries, {}", call.count, entries::words(Some(&call.out)))))
}

/// Words about each difference, and the pairs after which every record could go on.
fn compare() -> (Vec<String>, Vec<(u8, u8)>) {
    let (mut words, mut pairs) = (Vec::new(), Vec::new());
    let Some((0, table)) = library::load(BOOK).filter(|_| book::load(BOOK).is_ok()) else {
        return (vec!["the book is not loaded".to_string()], pairs);
    };
    for (first, second) in (0x80..=0xFF).flat_map(|first| (0..=0xFF).map(move |second| (first, second))) {
        let before_all = words.len();
        for before in BEFORE {
            let said = expected(before.len(), first, second);
            let mut tell = |what| words.push(format!("{first:02X} {second:02X} after {}: {what}; the decoder says {said:?}", before.escape_ascii()));
            if let Some(what) = library_words(&table, before, first, second, said) {
                tell(what);
            }
            let paper = paper(before, first, second);
            if paper != Some(said) {
                tell(format!("the paper says {paper:?}"));
            }
        }
        if words.len() == before_all && permitted(first, second) {
            pairs.push((first, second));
        }
    }
    (words, pairs)
}

pub fn differs() -> bool {
    !compare().0.is_empty()
}

/// The pairs as rows: first bytes next to each other that permit the same range of second bytes.
fn rows(pairs: &[(u8, u8)]) -> Vec<[u8; 4]> {
    let mut rows: Vec<[u8; 4]> = Vec::new();
    for first in 0x80..=0xFF {
        let seconds: Vec<u8> = pairs.iter().filter(|pair| pair.0 == first).map(|pair| pair.1).collect();
        let (Some(&low), Some(&high)) = (seconds.first(), seconds.last()) else { continue };
        match rows.last_mut() {
            Some(row) if row[1] + 1 == first && row[2..] == [low, high] => row[1] = first,
            _ => rows.push([first, first, low, high]),
        }
        assert_eq!(usize::from(high - low) + 1, seconds.len(), "the second bytes of {first:02X} are no range");
    }
    rows
}

/// Compares all pairs, and prints what was permitted in the manner of RFC 3629, section 4.
pub fn hold() -> bool {
    let (words, pairs) = compare();
    for words in words.iter().take(SHOWN) {
        println!("DIFFERENCE {words}");
    }
    println!("first bytes  second bytes");
    for [from, to, low, high] in rows(&pairs) {
        println!("{:<12} {low:02X}-{high:02X}", if from == to { format!("{from:02X}") } else { format!("{from:02X}-{to:02X}") });
    }
    println!("differ: 32768 pairs of a first byte from 80 up and a second byte, {} permitted, {} differences", pairs.len(), words.len());
    words.is_empty()
}
