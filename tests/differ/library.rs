//! The library behind include/fieldtext.h. All that is lent to it stands in the middle of larger buffers.

use crate::flat::TABLE;
use crate::lent::Lent;
use crate::plant::{on, Plant};
use crate::rng::noise;
use crate::trial::Stream;

extern "C" {
    fn fieldtext_book_number(book: *const u8, book_length: usize) -> u8;
    fn fieldtext_book_line(book: *const u8, book_length: usize) -> usize;
    fn fieldtext_judge(
        book: *const u8, book_length: usize, stream: *const u8, stream_length: usize, size: usize,
        work: *mut u8, work_length: usize, out: *mut u8, out_length: usize,
    ) -> usize;
    fn fieldtext_load(book: *const u8, book_length: usize, table: *mut u8) -> u8;
    fn fieldtext_judge_table(
        table: *const u8, stream: *const u8, stream_length: usize, size: usize,
        work: *mut u8, work_length: usize, out: *mut u8, out_length: usize,
    ) -> usize;
}

/// The number and line of a book's refusal; none where the book, or bytes around it, were written.
pub fn refusal(book: &[u8]) -> Option<(u32, usize)> {
    let lent = Lent::new(book, book.len() as u64);
    // SAFETY: pointer and length are those of one part of a buffer.
    let (number, line) = unsafe { (fieldtext_book_number(lent.start(), lent.length()), fieldtext_book_line(lent.start(), lent.length())) };
    (lent.whole() && lent.values() == book).then_some((number.into(), line))
}

/// What load gives: the number of a refusal, 0 for an accepted book, and the table; none where the book, or bytes around it or around the
/// table, were written.
pub fn load(book: &[u8]) -> Option<(u32, Vec<u8>)> {
    let seed = book.len() as u64;
    let lent = Lent::new(book, seed);
    let mut table = Lent::new(&noise(seed ^ 7, TABLE), seed ^ 8);
    // SAFETY: pointer and length are those of one part of a buffer, and the table's part has its 7,920 bytes.
    let number = unsafe { fieldtext_load(lent.start(), lent.length(), table.start_mut()) };
    (lent.whole() && lent.values() == book && table.whole()).then(|| (number.into(), table.values().to_vec()))
}

/// What a stream is judged by.
#[derive(Clone, Copy)]
pub enum By<'a> { Book(&'a [u8]), Table(&'a [u8]) }

impl<'a> By<'a> {
    fn bytes(self) -> &'a [u8] {
        match self {
            By::Book(bytes) | By::Table(bytes) => bytes,
        }
    }
}

/// What a call gave: the number of entries and the bytes of out.
pub struct Call {
    pub count: usize,
    pub out: Vec<u8>,
}

/// What the calls for a stream gave, in their order, and the work buffer after the first.
pub struct Shown {
    pub calls: Vec<Call>,
    pub work: Vec<u8>,
    /// Words about bytes that were written where none may be, or about work buffers that differ between the calls.
    pub wrong: Option<String>,
}

/// The bytes that a work buffer holds before the calls: mostly any, sometimes all alike.
pub fn work_before(stream: &Stream) -> Vec<u8> {
    match stream.seed % 8 {
        0 => vec![0; stream.work],
        1 => vec![1; stream.work],
        2 => vec![255; stream.work],
        _ => noise(stream.seed ^ 1, stream.work),
    }
}

/// The bytes of out before a call.
pub fn out_before(stream: &Stream, length: usize) -> Vec<u8> {
    noise(stream.seed ^ 2, length)
}

/// The stream, once for each of its sizes of pieces.
pub fn judge(by: By, stream: &Stream) -> Shown {
    let mut shown = Shown { calls: Vec::new(), work: Vec::new(), wrong: None };
    let mut lent = [Lent::new(by.bytes(), stream.seed ^ 3), Lent::new(&stream.bytes, stream.seed ^ 4)];
    for &(size, room) in &stream.calls {
        let work = Lent::new(&work_before(stream), stream.seed ^ 5);
        let out = Lent::new(&out_before(stream, room), stream.seed ^ 6);
        let (call, work) = call(by, &mut lent, size, work, out, &mut shown.wrong);
        if shown.calls.is_empty() {
            shown.work = work;
        } else if shown.work != work {
            shown.wrong.get_or_insert(format!("pieces of {size} bytes leave another work buffer than pieces of {} bytes", stream.calls[0].0));
        }
        shown.calls.push(call);
    }
    for (lent, before, name) in [(&lent[0], by.bytes(), "book or table"), (&lent[1], &stream.bytes, "stream")] {
        if !lent.whole() || lent.values() != before {
            shown.wrong.get_or_insert(format!("the {name}, or bytes around it, were written"));
        }
    }
    shown
}

fn call(by: By, lent: &mut [Lent<u8>; 2], size: usize, mut work: Lent<u8>, mut out: Lent<u8>, wrong: &mut Option<String>) -> (Call, Vec<u8>) {
    let (work_length, out_length) = (work.length(), out.length());
    let [first, stream] = &*lent;
    // SAFETY: each pointer and length are those of one part of a buffer, a table has its 7,920 bytes, and the four buffers are apart.
    let count = unsafe {
        match by {
            By::Book(_) => fieldtext_judge(
                first.start(), first.length(), stream.start(), stream.length(), size,
                work.start_mut(), work_length, out.start_mut(), out_length,
            ),
            By::Table(_) => fieldtext_judge_table(
                first.start(), stream.start(), stream.length(), size,
                work.start_mut(), work_length, out.start_mut(), out_length,
            ),
        }
    };
    let count = count + usize::from(on(Plant::PiecesCounted) && size == 1);
    spoil(by, lent, &mut work, &mut out, size);
    for (lent, name) in [(&work, "work buffer"), (&out, "out")] {
        if !lent.whole() {
            wrong.get_or_insert(format!("bytes around the {name} were written, in pieces of {size} bytes"));
        }
    }
    (Call { count, out: out.values().to_vec() }, work.values().to_vec())
}

/// Planted faults of a library: bytes written where none may be.
fn spoil(by: By, lent: &mut [Lent<u8>; 2], work: &mut Lent<u8>, out: &mut Lent<u8>, size: usize) {
    let (before, behind) = (work.before.len() - 1, out.before.len() + out.length());
    let plants = [
        (Plant::WorkBefore, &mut work.all, before),
        (Plant::OutBehind, &mut out.all, behind),
    ];
    for (plant, all, at) in plants {
        if on(plant) {
            all[at] = all[at].wrapping_add(1);
        }
    }
    let [first, stream] = lent;
    let written = if let By::Book(_) = by { Plant::BookWritten } else { Plant::TableWritten };
    for (plant, lent) in [(written, first), (Plant::StreamWritten, stream)] {
        if on(plant) {
            let at = lent.all.len() / 2;
            lent.all[at] = lent.all[at].wrapping_add(1);
        }
    }
    if on(Plant::PiecesWork) && size == 1 && work.length() > 0 {
        let at = work.before.len();
        work.all[at] = work.all[at].wrapping_add(1);
    }
}
