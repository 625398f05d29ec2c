//! The paper, part four: parts of a stream, their verdicts, and what the judging program prints (docs/REQUIREMENT.md, sections 6 and 7).

use crate::book::{Book, Refusal};
use crate::flat::Flat;
use crate::frames::{self, Rules};
use crate::plant::{on, Plant};
use crate::run::valid;
use crate::text::{whole, Stop};

pub const RS: u8 = 0x1E;
/// A record has at most this many bytes.
pub const LONGEST: usize = 16_777_216;

#[derive(Clone, Copy, PartialEq, Eq, Debug)]
pub enum Verdict { Valid, Invalid, Refused(u32, usize) }

/// A nonempty part of a stream, whether it is the head, and the bytes of the stream read when it has its verdict.
pub struct Part<'a> {
    pub bytes: &'a [u8],
    pub head: bool,
    pub read: usize,
}

/// RS splits a stream; the bytes before the first RS are the head; empty parts have no verdict.
pub fn parts(stream: &[u8]) -> Vec<Part<'_>> {
    let mut list = Vec::new();
    let (mut start, mut head, mut quoted) = (0, true, false);
    for (i, &byte) in stream.iter().enumerate() {
        quoted ^= byte == b'"';
        if byte == RS && !(on(Plant::RsInString) && quoted) {
            let read = if on(Plant::ReadWithoutRs) { i } else { i + 1 };
            list.push(Part { bytes: &stream[start..i], head, read });
            (start, head, quoted) = (i + 1, false, false);
        }
    }
    let read = stream.len() + usize::from(on(Plant::CloseCounted));
    list.push(Part { bytes: &stream[start..], head, read });
    list.retain(|part| !part.bytes.is_empty() || on(Plant::EmptyPart));
    list
}

/// The verdict of a part: its first fault among 15, 13, 11, 12, or 14 at its end, or else by its runs.
pub fn verdict<R: Rules>(rules: &R, part: &Part, levels: usize) -> Verdict {
    if part.head && !on(Plant::HeadJudged) {
        return Verdict::Refused(15, 0);
    }
    let longest = LONGEST - usize::from(on(Plant::LengthLess));
    let length = part.bytes.len();
    if on(Plant::LongFirst) && length > longest {
        return Verdict::Refused(13, longest);
    }
    let seen = if on(Plant::LongLast) { length.min(longest + 1) } else { length.min(longest) };
    match whole(&part.bytes[..seen], levels) {
        Err(Stop::Fault(place)) => Verdict::Refused(11, place),
        Err(Stop::Deep(place)) => Verdict::Refused(12, place),
        _ if length > longest => Verdict::Refused(13, longest),
        Err(Stop::End) => Verdict::Refused(14, unfinished(part.bytes)),
        Ok(value) => if valid(rules, &value) { Verdict::Valid } else { Verdict::Invalid },
    }
}

/// The place of 14 is the length.
fn unfinished(bytes: &[u8]) -> usize {
    if on(Plant::UnfinishedPlace) {
        return bytes.iter().rposition(|byte| !b" \t\n\r".contains(byte)).map_or(0, |last| last + 1);
    }
    bytes.len()
}

/// What load, start, feed and close find: a refused book, a refused start (21 or 23), or a verdict for each record with the bytes read by then.
pub enum Found { Book(u32, usize), Start(u32), Judged(Vec<(Verdict, usize)>) }

/// Load, start with the work buffer, feed and close; the buffer is left as they leave it.
pub fn judge(loaded: &Result<Book, Refusal>, stream: &[u8], work: &mut [u8]) -> Found {
    let least = if on(Plant::Buffer97) { 97 } else { 96 };
    let small = work.len() < least;
    if on(Plant::StartFirst) && small {
        return Found::Start(21);
    }
    if on(if loaded.is_err() || small { Plant::RefusedClears } else { Plant::StartClears }) {
        work.fill(0);
    }
    let frames = 96 * frames::count(work.len());
    if on(Plant::RestCleared) {
        work[frames..].fill(0);
    }
    match loaded {
        Err((number, line)) => Found::Book(*number, *line),
        Ok(_) if small => Found::Start(21),
        Ok(book) => judged(book, stream, work),
    }
}

/// Start with any bytes as a table, feed and close.
pub fn judge_table(table: &[u8], stream: &[u8], work: &mut [u8]) -> Found {
    let flat = Flat(table);
    match () {
        _ if work.len() < 96 && on(Plant::TableLater) => Found::Start(21),
        _ if flat.above_limit() => Found::Start(23),
        _ if work.len() < 96 => Found::Start(21),
        _ => judged(&flat, stream, work),
    }
}

/// A verdict for each record.
fn judged<R: Rules>(rules: &R, stream: &[u8], work: &mut [u8]) -> Found {
    Found::Judged(parts(stream).iter().map(|part| (record(rules, part, work), part.read)).collect())
}

/// The verdict of a part, and its frames.
fn record<R: Rules>(rules: &R, part: &Part, work: &mut [u8]) -> Verdict {
    let verdict = verdict(rules, part, frames::count(work.len()));
    frames::draw(rules, part, verdict, work);
    verdict
}

/// The lines that the judging program prints (docs/REQUIREMENT.md, section 8); it lends 64 frames, so its start is not refused.
pub fn lines(found: &Found) -> Vec<String> {
    match found {
        Found::Book(number, line) => vec!["number line".to_string(), format!("{number} {line}")],
        Found::Start(_) => Vec::new(),
        Found::Judged(verdicts) => {
            let mut list = vec!["verdict number place".to_string()];
            list.extend(verdicts.iter().map(|(verdict, _)| match verdict {
                Verdict::Valid => "valid 0 0".to_string(),
                Verdict::Invalid => "invalid 0 0".to_string(),
                Verdict::Refused(number, place) => format!("refused {number} {place}"),
            }));
            list
        }
    }
}
