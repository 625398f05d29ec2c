//! The examples of docs/REQUIREMENT.md, sections 8 and 9, held against the paper before it is held against the program.

use crate::book::load;
use crate::field::{self, Field};
use crate::number::Written;
use crate::stream::{judge, lines};
use crate::track::{self, Entry};

/// Book B.
pub const BOOK: &str = "rule form state key value next
0 obj 0 corners r1 1
0 obj 1 name str 2
0 obj 2 - end -
1 arr 0 - r2 0
1 arr 0 - end -
2 arr 0 - int 1
2 arr 1 - int 2
2 arr 2 - end -
";

const TITLE: &str = "verdict number place";

/// Streams under the book, with the verdict lines that they have there.
const EXAMPLES: &[(&[u8], &str)] = &[
    (
        b"\x1E{\"name\":\"N\",\"corners\":[[1,2]]}\n\x1E{\"name\":\"N\"}\n\x1E{\"name\":\x1E\x1E[1,]\n",
        "valid 0 0, invalid 0 0, refused 14 8, refused 11 3",
    ),
    (b"\x1E{}", "invalid 0 0"),
    (b"\x1E{\"corners\":[],\"name\":\"\"}", "valid 0 0"),
    (b"\x1E{\"name\":\"\",\"name\":\"\",\"corners\":[]}", "invalid 0 0"),
    (b"\x1E{\"n\\u0061me\":\"a\",\"corners\":[]}", "valid 0 0"),
    (b"\x1E{\"corners\":[[1.0,2]],\"name\":\"\"}", "valid 0 0"),
    (b"\x1E{\"corners\":[[1.5,2]],\"name\":\"\"}", "invalid 0 0"),
    (b"\x1E1.0", "invalid 0 0"),
    (b"\x1E{\"corners\":[[1,2]],\"name\":\"\"}", "valid 0 0"),
    (b"\x1E12", "invalid 0 0"),
    (b"\x1E01", "refused 11 1"),
    (b"\x1E-", "refused 14 1"),
    (b"\x1E\"\\uDC00\"", "refused 11 4"),
    (b"\x1E\"\xE0\x80", "refused 11 2"),
    (b"\x1E\n", "refused 14 1"),
    (b"\x1Enulx", "refused 11 3"),
    (b"\x1E{}x", "refused 11 2"),
    (b"z", "refused 15 0"),
    (b"", ""),
];

/// Numbers whose value is whole, and numbers whose value is not (section 4).
const WHOLE: &[&str] = &[
    "7", "-0", "1.0", "1e2", "1.50e1", "0e-5", "100e-2", "10e-1", "0.0e-1", "-0.0", "1e-0", "1E+2", "100.0e-2", "0.10e1", "5e-000", "-30e-01",
    "0e-99999999999999999999", "1.5e99999999999999999999", "0.001e3",
];
const NOT_WHOLE: &[&str] =
    &["15e-1", "1.5", "1.05e1", "120e-2", "0.01e1", "10.50e0", "-1.01", "10e-02", "10e-18446744073709551617", "1e-99999999999999999999"];

/// Records with the work bytes that they leave, as far as they are not zero: by level and byte.
type Frames = (&'static [u8], &'static [(usize, usize, u8)]);
const FRAMES: &[Frames] = &[
    (
        b"\x1E{\"corners\":[[1,2]],\"name\":\"\"}",
        &[(1, 0, 1), (1, 1, 1), (1, 16, 3), (1, 32, 3), (2, 0, 2), (2, 34, 1), (3, 0, 2), (3, 36, 4)],
    ),
    (b"\x1E{\"corners\":[[1.0,", &[(1, 0, 1), (1, 16, 1), (2, 0, 2), (2, 34, 1), (2, 36, 1), (3, 0, 2), (3, 36, 2)]),
    (b"\x1E{\"corners\":[[1.5,", &[(1, 0, 1), (1, 16, 1), (2, 0, 2), (2, 34, 1), (2, 36, 1), (3, 0, 2)]),
];

/// Corners of a field, points, and what is answered for each: a place or a refusal, and the nearest corner.
type Located = (&'static str, &'static [((i128, i128), (u32, usize))]);
const FIELDS: &[Located] = &[
    ("[0,0],[10,0],[10,10],[0,10]", &[((5, 5), (1, 0)), ((5, 0), (2, 0)), ((-1, 10), (0, 3)), ((1_000_001, 0), (33, 0)), ((0, 3), (2, 0))]),
    ("[0,-0],[10,0],[10,10],[-0,10]", &[((5, 5), (1, 0)), ((0, -1_000_001), (33, 0))]),
    ("[0,0],[10,10],[10,0],[0,10]", &[((5, 5), (2, 0)), ((9, 5), (1, 1)), ((5, 1), (0, 0))]),
    ("[3,3],[3,3],[3,3]", &[((3, 3), (2, 0)), ((3, 4), (0, 0))]),
    ("[0,0],[9999999,0]", &[((0, 0), (32, 0))]),
    ("[0,0],[1.0,0],[0,1]", &[((0, 0), (33, 0))]),
    ("[0,0],[1e1,0],[0,1]", &[((0, 0), (33, 0))]),
    ("[0,0],[1000001,0],[0,1]", &[((0, 0), (33, 0))]),
    ("[0,0],[1.5,0],[0,1]", &[((0, 0), (31, 0))]),
];

/// Corners of a field, the refusal of its text or 0, and a track: each point with the answer and the nearest corner that its entry has afterwards.
type Followed = (&'static str, u32, &'static [((i32, i32), (i32, i32))]);
/// What stands in an entry before.
const BEFORE: (i32, i32) = (-7, 77);
const TRACKS: &[Followed] = &[
    ("[0,0],[10,0],[10,10],[0,10]", 0, &[((5, 5), (1, 0)), ((1_000_001, 0), (33, 0)), ((0, 3), (2, 0))]),
    ("[0,0],[10,0],[10,10],[0,10]", 0, &[((1_000_001, 0), (33, 0)), ((0, -1_000_001), (33, 0))]),
    ("[0,0],[10,0],[10,10],[0,10]", 0, &[]),
    ("[0,0],[1.5,0],[0,1]", 31, &[((0, 0), BEFORE), ((1_000_001, 0), BEFORE)]),
    ("[0,0],[1.5,0],[0,1]", 31, &[]),
    ("[0,0],[9999999,0]", 32, &[((1_000_001, 0), BEFORE)]),
    ("[0,0],[1.0,0],[0,1]", 33, &[((0, 0), BEFORE)]),
];

/// What the paper says with so many work bytes.
fn said(book: &[u8], stream: &[u8], work: usize) -> String {
    lines(&judge(&load(book), stream, &mut vec![0; work])).join(", ")
}

/// Words about the first example that the paper is wrong about.
pub fn wrong() -> Option<String> {
    let titled = |verdicts: &str| if verdicts.is_empty() { TITLE.to_string() } else { format!("{TITLE}, {verdicts}") };
    let mut list: Vec<(&[u8], usize, &str)> = EXAMPLES.iter().map(|&(stream, want)| (stream, 6144, want)).collect();
    list.extend([(FRAMES[0].0, 288, "valid 0 0"), (FRAMES[0].0, 287, "refused 12 12")]);
    for (stream, work, want) in list {
        let got = said(BOOK.as_bytes(), stream, work);
        if got != titled(want) {
            return Some(format!("{} with {work} work bytes: {got}, not {want}", stream.escape_ascii()));
        }
    }
    let got = said(b"rule form state key value next\n0 obj 0 a int 0\n", b"", 6144);
    if got != "number line, 9 2" {
        return Some(format!("a line 0 obj 0 a int 0: {got}"));
    }
    let fields = || FIELDS.iter().find_map(wrong_field).or_else(|| TRACKS.iter().find_map(wrong_track));
    wrong_number().or_else(wrong_value).or_else(|| FRAMES.iter().find_map(wrong_frames)).or_else(fields)
}

/// A number that stands for a corner, where the book asks for `int`.
fn wrong_number() -> Option<String> {
    let zeros = "0".repeat(200_000);
    let long = [(format!("1{zeros}e-200000"), true), (format!("1{zeros}e-200001"), false)];
    let all = |list: &[&str], fits| list.iter().map(|number| (number.to_string(), fits)).collect::<Vec<_>>();
    let numbers = [all(WHOLE, true), all(NOT_WHOLE, false), long.to_vec()].concat();
    numbers.into_iter().find_map(|(number, fits)| {
        let record = format!("\x1E{{\"corners\":[[0,{number}]],\"name\":\"\"}}");
        let want = format!("{TITLE}, {} 0 0", if fits { "valid" } else { "invalid" });
        let got = said(BOOK.as_bytes(), record.as_bytes(), 288);
        (got != want).then(|| format!("{number} as a corner: {got}"))
    })
}

/// A short number of which a quotient of machine integers says otherwise whether its value is whole: n/10^f times 10^e for each n below 2,500, with
/// f from 0 to 3 digits after the point and e from -4 to 4.
fn wrong_value() -> Option<String> {
    for (n, f, e) in (0..2_500u64).flat_map(|n| (0..4u32).flat_map(move |f| (-4..=4i32).map(move |e| (n, f, e)))) {
        let one = 10u64.pow(f);
        let number = match f {
            0 => format!("{n}e{e}"),
            _ => format!("{}.{:0width$}E{e:+}", n / one, n % one, width = f as usize),
        };
        let (above, below) = (n * 10u64.pow(e.max(0) as u32), one * 10u64.pow((-e).max(0) as u32));
        if Written::new(number.as_bytes()).whole() != (above % below == 0) {
            return Some(format!("{number} taken as {}whole", if above % below == 0 { "not " } else { "" }));
        }
    }
    None
}

fn wrong_frames(&(record, bytes): &Frames) -> Option<String> {
    let (mut work, mut want) = (vec![0xA5; 300], vec![0; 288]);
    for &(level, byte, value) in bytes {
        want[96 * (level - 1) + byte] = value;
    }
    want.extend([0xA5; 12]);
    judge(&load(BOOK.as_bytes()), record, &mut work);
    (work != want).then(|| format!("frames {work:?}, not {want:?}"))
}

/// A field with these corners.
fn field_of(corners: &str) -> Field {
    let book = load(BOOK.as_bytes()).expect("book B is accepted");
    field::read(&book, format!("{{\"n\\u0061me\":\"[[1,2]]\",\"corners\":[{corners}]}}").as_bytes())
}

fn wrong_field(&(corners, points): &Located) -> Option<String> {
    let field = field_of(corners);
    let (point, _) = points.iter().find(|&&(point, want)| field.answer(point) != want)?;
    Some(format!("{point:?} in {corners}: {:?}", field.answer(*point)))
}

fn wrong_track(&(corners, refusal, points): &Followed) -> Option<String> {
    let field = field_of(corners);
    let before: Vec<Entry> = points.iter().map(|&((x, y), _)| [x, y, BEFORE.0, BEFORE.1]).collect();
    let want: Vec<Entry> = points.iter().map(|&((x, y), (answer, nearest))| [x, y, answer, nearest]).collect();
    let got = (track::given(&field, &before), track::after(&field, &before));
    (got != (refusal, want)).then(|| format!("a track in {corners}: {got:?}"))
}
