//! Holds what the library gave against the paper, and makes a stream that differs smaller.

use crate::book::{Book, Refusal};
use crate::entries::{counted, entries, words, write, Entry, ENTRY};
use crate::frames::FRAME;
use crate::flat;
use crate::library::{self, out_before, work_before, By, Shown};
use crate::program::escaped;
use crate::stream::{judge, judge_table, Found, RS};
use crate::trial::Stream;

/// Streams above this length are not made smaller.
const SMALL: usize = 1 << 20;

/// What the paper says about a stream, and the work buffer after it.
pub fn paper(loaded: &Result<Book, Refusal>, stream: &Stream) -> (Found, Vec<u8>) {
    let mut work = work_before(stream);
    let found = judge(loaded, &stream.bytes, &mut work);
    (found, work)
}

/// The same where the stream is judged by the bytes of a table.
pub fn table_paper(table: &[u8], stream: &Stream) -> (Found, Vec<u8>) {
    let mut work = work_before(stream);
    let found = judge_table(table, &stream.bytes, &mut work);
    (found, work)
}

/// None where the library's load gives the paper's number, and the bytes of the book's table.
pub fn load_difference(book: &[u8], loaded: &Result<Book, Refusal>, got: &Option<(u32, Vec<u8>)>) -> Option<String> {
    let Some((number, table)) = got else { return Some("load wrote into the book, or around it or the table".to_string()) };
    let want = loaded.as_ref().err().map_or(0, |&(number, _)| number);
    if want != *number {
        return Some(format!("book: {}\nnumber of load: paper {want}, library {number}", escaped(book)));
    }
    let bytes = flat::of_book(loaded.as_ref().ok());
    let at = (0..bytes.len()).find(|&i| bytes[i] != table[i])?;
    Some(format!("book: {}\nbyte {at} of its table: paper {}, library {}", escaped(book), bytes[at], table[at]))
}

/// None where the library gives the paper's number and line for a book.
pub fn book_difference(book: &[u8], loaded: &Result<Book, Refusal>, got: Option<(u32, usize)>) -> Option<String> {
    let want = loaded.as_ref().err().copied().unwrap_or((0, 0));
    let said = || got.map_or("wrote into the book or around it".to_string(), |got| format!("{got:?}"));
    (got != Some(want)).then(|| format!("book: {}\nnumber and line: paper {want:?}, library {}", escaped(book), said()))
}

/// None where the calls for a stream gave what the paper says, else words about the first difference.
pub fn difference(stream: &Stream, (found, work): &(Found, Vec<u8>), shown: &Shown) -> Option<String> {
    let list = entries(found);
    for (&(size, room), call) in stream.calls.iter().zip(&shown.calls) {
        let mut out = out_before(stream, room);
        write(&list, &mut out);
        let count = counted(&list, room);
        if count != call.count || out != call.out {
            let counts = format!("{count} entries, library {} entries", call.count);
            return Some(format!("pieces of {size} bytes, out of {room} bytes: paper {counts}; {}", out_words(&list, &out, &call.out)));
        }
    }
    if *work != shown.work {
        return Some(work_words(work, &shown.work));
    }
    shown.wrong.clone()
}

/// Words about the first entry that differs, or the first byte that is no part of an entry.
fn out_words(list: &[Entry], want: &[u8], got: &[u8]) -> String {
    let Some(at) = (0..want.len()).find(|&i| want[i] != got[i]) else { return "out is the same".to_string() };
    let (first, number) = (at / ENTRY * ENTRY, at / ENTRY);
    if number >= list.len() || first + ENTRY > want.len() {
        return format!("byte {at} of out, behind the entries, was written");
    }
    format!("entry {number}: paper {}, library {}", words(want.get(first..first + ENTRY)), words(got.get(first..first + ENTRY)))
}

fn work_words(want: &[u8], got: &[u8]) -> String {
    let differing: Vec<usize> = (0..want.len()).filter(|&i| want[i] != got[i]).collect();
    let byte = |&i: &usize| format!("level {} byte {}: paper {}, library {}", i / FRAME + 1, i % FRAME, want[i], got[i]);
    let shown: Vec<String> = differing.iter().take(8).map(byte).collect();
    format!("{} work bytes differ; {}", differing.len(), shown.join("; "))
}

/// The smallest number of whole parts, first from the end and then from the beginning, that still differs; with words about it.
pub fn smaller(book: &[u8], loaded: &Result<Book, Refusal>, stream: &Stream) -> String {
    let differs = |bytes: &[u8]| {
        let part = Stream { bytes: bytes.to_vec(), work: stream.work, calls: stream.calls.clone(), seed: stream.seed };
        difference(&part, &paper(loaded, &part), &library::judge(By::Book(book), &part))
    };
    let mut bytes = &stream.bytes[..];
    if bytes.len() <= SMALL {
        let ends = (0..bytes.len()).filter(|&i| bytes[i] == RS);
        bytes = ends.map(|end| &bytes[..end]).find(|part| differs(part).is_some()).unwrap_or(bytes);
        let starts = (0..bytes.len()).rev().filter(|&i| bytes[i] == RS);
        bytes = starts.map(|start| &bytes[start..]).find(|part| differs(part).is_some()).unwrap_or(bytes);
    }
    let words = differs(bytes).unwrap_or_else(|| "the difference is gone when the calls are repeated".to_string());
    format!("book: {}\nstream: {}\nwork buffer of {} bytes\n{words}", escaped(book), escaped(bytes), stream.work)
}
