//! Makes the trials: a book, and streams for it with what is lent along with them.

use crate::book::load;
use crate::flat::{changes, of_book};
use crate::make_book::{book_lines, changed, joined};
use crate::make_number::{long_numbers, longest_number, LISTED, LONGEST_NUMBERS};
use crate::make_record::{every_byte, long_stream, records, stream, LONG_STREAMS};
use crate::rng::Rng;
use crate::stream::RS;

/// Trials with a long part each come first, then those with every byte in every place, two with numbers, then the trials made by chance.
pub const LONG: u64 = LONG_STREAMS + LONGEST_NUMBERS;
pub const FIRST: u64 = LISTS + 2;
const LISTS: u64 = LONG + INSIDE.len() as u64;
const INSIDE: [&[u8]; 3] = [b"", b"[\"\",", b"{\"a\":"];
/// Records of an accepted book, about.
const RECORDS: usize = 60;
/// Other books of a trial.
const BOOKS: usize = 2;
/// Changed tables of a trial, at most.
const TABLES: usize = 12;
/// Of the trials made by chance, one in so many goes to the program too.
const PROGRAM: u64 = 4;

const FIXED: &[u8] = b"rule form state key value next
0 arr 0 - str 0
0 arr 0 - num 0
0 arr 0 - int 1
0 arr 0 - r0 0
0 arr 0 - r31 2
0 arr 0 - null 3
0 arr 3 - true 4
0 arr 0 - end -
31 obj 0 a int 1
31 obj 0 a num 2
31 obj 0 a str 3
31 obj 0 a null 3
31 obj 0 a true 3
31 obj 0 a false 3
31 obj 0 a r0 3
31 obj 0 a r31 3
31 obj 3 b int 4
31 obj 3 - end -
";

/// A number at the end of an array, or under the key a, has to be whole.
const WHOLE: &[u8] = b"rule form state key value next
0 arr 0 - int 0
0 arr 0 - r1 0
0 arr 0 - num 1
0 arr 1 - int 2
0 arr 0 - end -
0 arr 2 - end -
1 obj 0 a int 1
1 obj 1 b num 2
1 obj 1 - end -
1 obj 2 - end -
";

/// Bytes of the book's table that are changed, each with its new value, and a stream that is judged by the table then.
pub struct Changed {
    pub bytes: Vec<(usize, u8)>,
    pub stream: Stream,
}

impl Changed {
    /// The table with its bytes changed.
    pub fn table(&self, table: &[u8]) -> Vec<u8> {
        let mut table = table.to_vec();
        for &(place, byte) in &self.bytes {
            table[place] = byte;
        }
        table
    }
}

/// A stream, the length of the work buffer, the calls with their sizes of pieces and lengths of out, and a seed for the bytes lent.
#[derive(Clone)]
pub struct Stream {
    pub bytes: Vec<u8>,
    pub work: usize,
    pub calls: Vec<(usize, usize)>,
    pub seed: u64,
}

/// What the program is handed: the first stream of the trial, in small pieces where there is a seed for them.
pub struct Handed {
    pub pieces: Option<u64>,
}

/// A book, absent where `book.txt` cannot be read, and streams; those for the program have 64 frames.
pub struct Trial {
    pub book: Option<Vec<u8>>,
    pub streams: Vec<Stream>,
    pub program: Option<Handed>,
    /// Other books, of which only number and line are compared.
    pub books: Vec<Vec<u8>>,
    /// Of an accepted book.
    pub tables: Vec<Changed>,
}

impl Trial {
    /// Empty where it is absent.
    pub fn book(&self) -> &[u8] {
        self.book.as_deref().unwrap_or(&[])
    }
}

/// Trial `number` of a seed, always the same.
pub fn trial(seed: u64, number: u64) -> Trial {
    let mut rng = Rng::new(seed, number);
    if number < FIRST {
        return fixed(&mut rng, number);
    }
    let number = number - FIRST;
    let program = (number / 10 % PROGRAM == 0).then(|| Handed { pieces: rng.chance(25).then(|| rng.next()) });
    let book = if number % 10 < 4 {
        let aim = 1 + (number / 10 * 4 + number % 10) % 10;
        if number % 1000 == 0 { None } else { Some(changed(&mut rng, aim as usize)) }
    } else {
        Some(joined(&book_lines(&mut rng)))
    };
    let count = match rng.below(100) {
        _ if number % 10 < 4 => 8,
        0 => rng.below(2),
        1 if program.is_some() => 20 * RECORDS,
        _ => RECORDS,
    };
    let frames = if program.is_some() { rng.range(64, 70) } else { frames(&mut rng) };
    let loaded = load(book.as_deref().unwrap_or(&[]));
    let mut list = match &loaded {
        Ok(loaded) => records(&mut rng, loaded, count, frames.min(64)),
        Err(_) => vec![b"{}".to_vec(), b"[]".to_vec()],
    };
    let streams = match program {
        Some(_) => vec![whole(&mut rng, &list, frames)],
        None => {
            let lines = book.iter().flatten().filter(|&&byte| byte == b'\n').count();
            cut_up(&mut rng, &mut list, frames, 1 + lines / 40)
        }
    };
    let books = (0..BOOKS).map(|i| changed(&mut rng, (number as usize * BOOKS + i) % 10 + 1)).collect();
    let table = of_book(loaded.as_ref().ok());
    let streams_cut = if loaded.is_ok() && program.is_none() { TABLES.min(streams.len()) } else { 0 };
    let tables = streams[..streams_cut].iter().map(|stream| Changed { bytes: changes(&mut rng, &table), stream: stream.clone() }).collect();
    Trial { book, streams, program, books, tables }
}

/// Long parts, every byte in every place, and numbers: of these each record by itself, after one stream with all of them.
fn fixed(rng: &mut Rng, number: u64) -> Trial {
    let numbers = (LONG_STREAMS..LONG).contains(&number) || number >= LISTS;
    let streams = if number < LONG {
        let bytes = if numbers { longest_number(number - LONG_STREAMS) } else { long_stream(number) };
        let (work, calls) = (6144 + rng.below(96), vec![(0, 64), (rng.range(1 << 12, 1 << 24), 40)]);
        vec![Stream { bytes, work, calls, seed: rng.next() }]
    } else {
        let list = match number {
            LISTS => placed(&LISTED.map(|number| number.as_bytes().to_vec())),
            LISTS.. => placed(&long_numbers()),
            _ => every_byte(INSIDE[(number - LONG) as usize]),
        };
        let mut streams = vec![whole(rng, &list, 64)];
        streams.extend(list.iter().map(|record| alone(rng, record, numbers)));
        streams
    };
    let book = if numbers { WHOLE } else { FIXED };
    Trial { book: Some(book.to_vec()), streams, program: Some(Handed { pieces: None }), books: Vec::new(), tables: Vec::new() }
}

/// Each number in several places of a text, finished or not.
fn placed(numbers: &[Vec<u8>]) -> Vec<Vec<u8>> {
    let around = [
        ("[", "]"), ("[1.5,", "]"), ("[", ",1.0]"), ("[{\"a\":", "}]"), ("[{\"b\":15e-1,\"a\" : ", " } ]"), ("[1e-1,", ","), ("[", ""), ("", ""),
    ];
    let within = |number: &Vec<u8>| around.map(|(before, behind)| [before.as_bytes(), number, behind.as_bytes()].concat());
    numbers.iter().flat_map(within).collect()
}

/// A record by itself, in one piece and in pieces of one byte; or, where it is short, in pieces of every size.
fn alone(rng: &mut Rng, record: &[u8], cut: bool) -> Stream {
    let bytes = [&[RS], record].concat();
    let sizes = if cut && bytes.len() < 100 { 2..bytes.len() } else { 0..0 };
    let calls = [(0, 32), (1, 16)].into_iter().chain(sizes.map(|size| (size, 16))).collect();
    Stream { bytes, work: 288 + rng.below(96), calls, seed: rng.next() }
}

/// A number of frames from 1 to 70, few of them more often.
fn frames(rng: &mut Rng) -> usize {
    match rng.below(10) {
        0..=3 => rng.range(1, 6),
        4 => rng.range(62, 70),
        _ => rng.range(1, 70),
    }
}

/// All records in one stream.
fn whole(rng: &mut Rng, list: &[Vec<u8>], frames: usize) -> Stream {
    let bytes = stream(rng, list);
    let work = 96 * frames + rng.below(96);
    lend(rng, bytes, work)
}

/// The records in streams of one or a few, `times` as many for a long book, which takes long to load; some streams end anywhere, and
/// some buffers are too small to start with.
fn cut_up(rng: &mut Rng, list: &mut Vec<Vec<u8>>, frames: usize, times: usize) -> Vec<Stream> {
    let mut streams = Vec::new();
    while !list.is_empty() || streams.is_empty() {
        let count = (times * rng.pick(&[0, 1, 1, 1, 2, 2, 3, 6, 20])).min(list.len());
        let some: Vec<Vec<u8>> = list.drain(..count).collect();
        let mut bytes = stream(rng, &some);
        if rng.chance(30) {
            bytes.truncate(rng.below(bytes.len() + 1));
        }
        let rest = if rng.chance(30) { *rng.pick(&[0, 0, 1, 95]) } else { rng.below(96) };
        let work = if rng.chance(4) { rest } else { 96 * frames + rest };
        streams.push(lend(rng, bytes, work));
    }
    streams
}

/// Calls in three sizes of pieces. The first has room for every entry, the others for any number of bytes around that.
fn lend(rng: &mut Rng, bytes: Vec<u8>, work: usize) -> Stream {
    let length = bytes.len();
    let most = 16 * (1 + bytes.iter().filter(|&&byte| byte == RS).count());
    let whole = *rng.pick(&[0, length, length + 1, 1 << 40, usize::MAX]);
    let small = *rng.pick(&[1, 1, 2, 3, 7]);
    let sizes = [whole, small, rng.range(1, length + 2)];
    let room = |rng: &mut Rng, call| match rng.below(4) {
        _ if call == 0 => most + rng.below(40),
        0 => *rng.pick(&[0, 1, 15, 16, 17, 31, 32]),
        1 => (most + rng.below(3)).saturating_sub(rng.below(20)),
        _ => rng.below(most + 20),
    };
    let calls = sizes.iter().enumerate().map(|(call, &size)| (size, room(rng, call))).collect();
    Stream { bytes, work, calls, seed: rng.next() }
}
