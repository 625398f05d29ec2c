//! Judges standard input by a book: day BOOK < STREAM. Prints a line for each entry.
use std::io::Read;

extern "C" {
    fn fieldtext_judge(
        book: *const u8, book_length: usize, stream: *const u8, stream_length: usize, size: usize,
        work: *mut u8, work_length: usize, out: *mut u8, out_length: usize,
    ) -> usize;
}

/// How many entries there are; those that `out` has room for stand in it.
fn judge(book: &[u8], stream: &[u8], size: usize, work: &mut [u8], out: &mut [u8]) -> usize {
    // SAFETY: each pointer comes with the length of its slice; work and out are borrowed for writing.
    unsafe {
        fieldtext_judge(
            book.as_ptr(), book.len(), stream.as_ptr(), stream.len(), size,
            work.as_mut_ptr(), work.len(), out.as_mut_ptr(), out.len(),
        )
    }
}

fn main() -> std::io::Result<()> {
    let book = std::fs::read(std::env::args().nth(1).unwrap_or_default())?;
    let mut stream = Vec::new();
    std::io::stdin().read_to_end(&mut stream)?;
    let mut work = [0; 64 * 96];
    let made = judge(&book, &stream, 0, &mut work, &mut []);
    let mut out = vec![0; 16 * made];
    judge(&book, &stream, 0, &mut work, &mut out);
    for entry in out.chunks_exact(16) {
        let word = ["valid", "invalid", "refused"][usize::from(entry[0])];
        let place = u32::from_le_bytes(entry[4..8].try_into().unwrap());
        let read = u64::from_le_bytes(entry[8..].try_into().unwrap());
        println!("{word} {} {place}, read {read}", entry[1]);
    }
    Ok(())
}
