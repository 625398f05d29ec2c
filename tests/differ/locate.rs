//! The library's calls for fields, held against the paper: the answer, every number and every byte of what is lent. A track is held against the calls
//! for each of its points as well.

use crate::ask::{call, Asked, Shown};
use crate::book::{self, Book};
use crate::classes::Classes;
use crate::examples;
use crate::field::{self, corner, Field};
use crate::flat::{self, TABLE};
use crate::lent::Lent;
use crate::library;
use crate::make_field::{made, Made, Point, FIRST};
use crate::plant::{on, Plant};
use crate::program::escaped;
use crate::track;
use crate::NOW;
use std::collections::HashMap;
use std::fmt::Debug;
use std::sync::atomic::Ordering;

const SHOWN: u64 = 10;
/// Fields among which planted faults are looked for.
const PLANT_FIELDS: u64 = 3000;
/// Where the count of fields begins in what is watched.
pub const WATCHED: u64 = 1 << 40;

/// What a call gives by the paper: its two numbers, and the numbers of the corners afterwards.
fn said(field: &Field, asked: Asked, shown: &Shown) -> ((usize, usize), Vec<i32>) {
    let ([corners, _], [track, _]) = (&shown.corners, &shown.track);
    match asked {
        Asked::Point(point) => {
            let (answer, nearest) = field.answer(corner(point));
            ((answer as usize, nearest), field.memory(Some(corner(point)), corners))
        }
        Asked::Corners => {
            let (count, refusal) = field.count();
            ((count, refusal as usize), field.memory(None, corners))
        }
        Asked::Track(_) => ((track::given(field, track) as usize, 0), track::memory(field, track, corners)),
    }
}

/// Words about a call of which the paper says something else.
fn difference(field: &Field, asked: Asked, shown: &Shown) -> Option<String> {
    let (given, corners) = said(field, asked, shown);
    if given != shown.given {
        return Some(format!("paper {given:?}, library {:?}", shown.given));
    }
    let ([_, left], [before, after]) = (&shown.corners, &shown.track);
    let track = || first_unlike("track, entry", &track::after(field, before), after);
    first_unlike("corners, number", &corners, left).or_else(track).or_else(|| shown.wrong.clone())
}

/// Words about the first place where two lists of one length are not the same.
fn first_unlike<T: PartialEq + Debug>(name: &str, paper: &[T], library: &[T]) -> Option<String> {
    let at = (0..paper.len()).find(|&i| paper[i] != library[i])?;
    Some(format!("{name} {at}: paper {:?}, library {:?}", paper[at], library[at]))
}

/// What the comparison holds texts against.
pub struct Paper {
    book: Book,
    table: Vec<u8>,
}

impl Paper {
    /// Book B, and its table as load gives it.
    pub fn new() -> Result<Paper, String> {
        let bytes = examples::BOOK.as_bytes();
        match (book::load(bytes), library::load(bytes)) {
            (Ok(book), Some((0, table))) if table == flat::of_book(Some(&book)) => Ok(Paper { book, table }),
            _ => Err("book B is not loaded as the paper has it".to_string()),
        }
    }

    /// The table after a call.
    fn table(&self, field: &Field) -> Vec<u8> {
        if on(Plant::FieldTable) && field.corners.is_err() { vec![0; TABLE] } else { self.table.clone() }
    }

    /// Words about the first difference of a text; its points and its track are counted.
    fn compare(&self, made: &Made, seed: u64, classes: &mut Classes) -> Option<String> {
        let field = field::read(&self.book, &made.text);
        let table = self.table(&field);
        let mut asking = Asking { field, table, bytes: &made.text, text: Lent::new(&made.text, seed), seed: seed.wrapping_mul(32) };
        asking.compare(made, classes).err().map(|words| format!("{words}\ntext: {}", escaped(&made.text)))
    }
}

/// A text of which several things are asked.
struct Asking<'a> {
    field: Field,
    /// The table after each call.
    table: Vec<u8>,
    bytes: &'a [u8],
    text: Lent<u8>,
    /// That of the next call.
    seed: u64,
}

impl Asking<'_> {
    /// A call that gives what the paper says, or words about it.
    fn ask(&mut self, asked: Asked) -> Result<Shown, String> {
        let shown = call(&mut self.text, self.bytes, asked, self.seed, &self.table);
        self.seed = self.seed.wrapping_add(1);
        match difference(&self.field, asked, &shown) {
            Some(words) => Err(format!("{asked}: {words}")),
            None => Ok(shown),
        }
    }

    /// The points, the corners alone, and the track, whose other points are asked one by one before it.
    fn compare(&mut self, made: &Made, classes: &mut Classes) -> Result<(), String> {
        let mut alone = HashMap::new();
        for &point in &made.points {
            classes.count(&self.field, point);
            alone.insert(point, self.alone(point)?);
        }
        self.ask(Asked::Corners)?;
        for point in &made.track {
            if !alone.contains_key(point) {
                alone.insert(*point, self.alone(*point)?);
            }
        }
        classes.count_track(&self.field, &made.track);
        let shown = self.ask(Asked::Track(&made.track))?;
        match made.track.iter().enumerate().find(|&(i, point)| in_track(&shown, i) != alone[point]) {
            Some((i, point)) => Err(format!("entry {i} of the track: {:?}, but {point:?} alone gets {:?}", in_track(&shown, i), alone[point])),
            None => Ok(()),
        }
    }

    /// What the library gives for a point by itself.
    fn alone(&mut self, point: Point) -> Result<(usize, usize), String> {
        let (answer, nearest) = self.ask(Asked::Point(point))?.given;
        Ok((answer, nearest + usize::from(on(Plant::TrackAlone))))
    }
}

/// What a track says of entry i: its answer and its nearest corner; or the refusal of the text, and 0.
fn in_track(shown: &Shown, i: usize) -> (usize, usize) {
    match shown.given {
        (0, _) => (shown.track[1][i][2] as usize, shown.track[1][i][3] as usize),
        refused => refused,
    }
}

/// Compares the fixed fields, then fields made by chance until these have so many points, or one field alone; prints how many points and tracks fell
/// on each class.
pub fn hold(seed: u64, mut points: u64, only: Option<u64>, say: bool) -> bool {
    let paper = match Paper::new() {
        Ok(paper) => paper,
        Err(words) => {
            println!("DIFFERENCE {words}");
            return false;
        }
    };
    let (mut classes, mut differences) = (Classes::default(), 0);
    let first = only.unwrap_or(0);
    let mut next = first;
    while (next < FIRST || classes.points < points) && differences < SHOWN && (only.is_none() || next == first) {
        NOW.store(WATCHED + next, Ordering::Relaxed);
        if say {
            println!("field {next}");
        }
        if let Some(words) = paper.compare(&made(seed, next), next, &mut classes) {
            differences += 1;
            println!("DIFFERENCE seed {seed} field {next}, {words}");
        }
        next += 1;
        if next == FIRST {
            points += classes.points;
        }
    }
    let missed = if only.is_none() { classes.print() } else { 0 };
    if missed > 0 {
        println!("{missed} classes of fields were never met");
    }
    let Classes { points, tracks, on_tracks, .. } = classes;
    println!("differ: {points} points in {} fields, {on_tracks} on {tracks} tracks, {differences} differences", next - first);
    differences == 0 && missed == 0
}

/// The number of fields made by chance after which a difference shows.
pub fn found_after(seed: u64) -> Option<usize> {
    let Ok(paper) = Paper::new() else { return Some(0) };
    let mut fields = FIRST..FIRST + PLANT_FIELDS;
    fields.position(|number| paper.compare(&made(seed, number), number, &mut Classes::default()).is_some()).map(|at| at + 1)
}
