//! A differential test: the library and the judging program against a paper of its own, written from the words of the requirement (docs/REQUIREMENT.md).
//! Usage: differ JUDGE [--cases N] [--seed S] [--only TRIAL] [--field NUMBER] [--plants] [--say]. See README.md beside this file.

mod ask;
mod book;
mod classes;
mod entries;
mod examples;
mod field;
mod flat;
mod frames;
mod held;
mod lent;
mod library;
mod locate;
mod make_book;
mod make_field;
mod make_number;
mod make_record;
mod make_track;
mod number;
mod pairs;
mod plant;
mod program;
mod rng;
mod run;
mod stream;
mod table;
mod text;
mod track;
mod trial;

use library::{By, Shown};
use make_record::LONG_STREAMS;
use plant::Plant;
use program::{Printed, Program};
use std::path::PathBuf;
use std::process::exit;
use std::sync::atomic::{AtomicU64, Ordering};
use std::thread;
use std::time::Duration;
use table::Table;
use trial::{trial, Trial, FIRST, LONG};

const MOST_DIFFERENCES: u64 = 10;
/// A trial that takes longer than this many seconds is a failure.
const LONGEST_TRIAL: u64 = 120;

/// The trial under way.
static NOW: AtomicU64 = AtomicU64::new(0);

struct Options {
    judge: PathBuf,
    cases: Option<u64>,
    seed: u64,
    only: Option<u64>,
    field: Option<u64>,
    plants: bool,
    say: bool,
}

fn main() {
    let Some(options) = options() else {
        eprintln!("usage: differ JUDGE [--cases N] [--seed S] [--only TRIAL] [--field NUMBER] [--plants] [--say]");
        exit(2);
    };
    let path = match options.judge.canonicalize() {
        Ok(path) => path,
        Err(error) => fail(&format!("{}: {error}", options.judge.display())),
    };
    if let Some(words) = examples::wrong() {
        fail(&format!("the paper is wrong about an example of the requirement: {words}"));
    }
    let folder = program::folder().unwrap_or_else(|error| fail(&format!("no folder to work in: {error}")));
    let program = Program { path, folder };
    println!("seed {}", options.seed);
    let watched = program.folder.clone();
    thread::spawn(move || watch(watched));
    let good = if options.plants {
        plants(&options, &program)
    } else if options.field.is_some() {
        fields(&options)
    } else {
        (options.only.is_some() || pairs::hold() & fields(&options)) & compare_all(&options, &program)
    };
    program::remove(&program.folder);
    exit(if good { 0 } else { 1 });
}

fn fail(words: &str) -> ! {
    eprintln!("differ: {words}");
    exit(2);
}

/// Ends the test where a call of the library does not come back.
fn watch(folder: PathBuf) {
    let (mut last, mut seconds) = (u64::MAX, 0);
    loop {
        thread::sleep(Duration::from_secs(1));
        let now = NOW.load(Ordering::Relaxed);
        seconds = if now == last { seconds + 1 } else { 0 };
        last = now;
        if seconds > LONGEST_TRIAL {
            match now.checked_sub(locate::WATCHED) {
                Some(field) => println!("DIFFERENCE field {field} does not end"),
                None => println!("DIFFERENCE trial {now} does not end"),
            }
            program::remove(&folder);
            exit(1);
        }
    }
}

fn options() -> Option<Options> {
    let mut words = std::env::args().skip(1);
    let mut options = Options { judge: PathBuf::from(words.next()?), cases: None, seed: 1, only: None, field: None, plants: false, say: false };
    while let Some(word) = words.next() {
        match word.as_str() {
            "--cases" => options.cases = Some(words.next()?.parse().ok()?),
            "--seed" => options.seed = words.next()?.parse().ok()?,
            "--only" => options.only = Some(words.next()?.parse().ok()?),
            "--field" => options.field = Some(words.next()?.parse().ok()?),
            "--plants" => options.plants = true,
            "--say" => options.say = true,
            _ => return None,
        }
    }
    Some(options)
}

/// The comparison of fields: half as many points as there are cases of streams.
fn fields(options: &Options) -> bool {
    locate::hold(options.seed, options.cases.unwrap_or(200_000) / 2, options.field, options.say)
}

/// What program and library gave for a trial.
struct Given {
    printed: Option<Printed>,
    /// Number and line of the trial's book, then of its other books.
    refusals: Vec<Option<(u32, usize)>>,
    shown: Vec<Shown>,
    /// What load gave for the trial's book, and what its changed tables gave.
    loaded: Option<(u32, Vec<u8>)>,
    changed: Vec<Shown>,
}

impl Given {
    /// The bytes of the table that load gave.
    fn table(&self) -> &[u8] {
        self.loaded.as_ref().map_or(&[], |(_, table)| table)
    }
}

/// The trial's book and its other books.
fn books(trial: &Trial) -> impl Iterator<Item = &[u8]> {
    std::iter::once(trial.book()).chain(trial.books.iter().map(Vec::as_slice))
}

/// Words about the first book whose number or line differs.
fn book_words(trial: &Trial, given: &Given) -> Option<String> {
    books(trial).zip(&given.refusals).find_map(|(book, &got)| held::book_difference(book, &book::load(book), got))
}

fn run(program: &Program, trial: &Trial) -> Given {
    let printed = trial.program.as_ref().map(|handed| {
        program.run(trial, handed).unwrap_or_else(|error| {
            program::remove(&program.folder);
            fail(&format!("{}: {error}", program.path.display()))
        })
    });
    let shown = trial.streams.iter().map(|stream| library::judge(By::Book(trial.book()), stream)).collect();
    let loaded = library::load(trial.book());
    let mut given = Given { printed, refusals: books(trial).map(library::refusal).collect(), shown, loaded, changed: Vec::new() };
    given.changed = given_by_tables(trial, given.table());
    given
}

/// What the library gives for the trial's changed tables.
fn given_by_tables(trial: &Trial, table: &[u8]) -> Vec<Shown> {
    trial.tables.iter().map(|changed| library::judge(By::Table(&changed.table(table)), &changed.stream)).collect()
}

/// Words about the first changed table of which the paper says something else.
fn table_words(trial: &Trial, table: &[u8], shown: &[Shown]) -> Option<String> {
    trial.tables.iter().zip(shown).enumerate().find_map(|(i, (changed, shown))| {
        let said = held::table_paper(&changed.table(table), &changed.stream);
        let words = held::difference(&changed.stream, &said, shown)?;
        Some(format!("stream {i} by the table with {:?}\n{words}", changed.bytes))
    })
}

/// Both tables: library and program.
struct Tables {
    library: Table,
    program: Table,
}

/// Counts a trial, and gives words about its first difference.
fn hold(trial: &Trial, given: &Given, tables: &mut Tables) -> Option<String> {
    let loaded = book::load(trial.book());
    let mut words = book_words(trial, given).or_else(|| held::load_difference(trial.book(), &loaded, &given.loaded));
    words = words.or_else(|| table_words(trial, given.table(), &given.changed));
    for changed in &trial.tables {
        tables.library.count(&held::table_paper(&changed.table(given.table()), &changed.stream).0, changed.stream.work);
    }
    for book in &trial.books {
        tables.library.count_book(book::load(book).err().map_or(0, |(number, _)| number));
    }
    for (i, (stream, shown)) in trial.streams.iter().zip(&given.shown).enumerate() {
        let said = held::paper(&loaded, stream);
        tables.library.count(&said.0, stream.work);
        tables.library.count_numbers(&said.0, &stream.bytes, stream.work);
        if words.is_none() && held::difference(stream, &said, shown).is_some() {
            words = Some(format!("stream {i}\n{}", held::smaller(trial.book(), &loaded, stream)));
        }
        if let (0, Some(printed)) = (i, &given.printed) {
            tables.program.count(&said.0, stream.work);
            tables.program.count_numbers(&said.0, &stream.bytes, stream.work);
            words = words.or_else(|| program::difference(trial, &said.0, printed));
        }
    }
    words
}

/// The comparison: the fixed trials, then trials made by chance until these have enough cases.
fn compare_all(options: &Options, program: &Program) -> bool {
    let mut cases = options.cases.unwrap_or(200_000);
    let mut tables = Tables { library: Table::new(), program: Table::new() };
    let mut differences = 0;
    let mut number = options.only.unwrap_or(0);
    while (number < FIRST || tables.library.cases() < cases) && differences < MOST_DIFFERENCES {
        NOW.store(number, Ordering::Relaxed);
        if options.say {
            println!("trial {number}");
        }
        let trial = trial(options.seed, number);
        let given = run(program, &trial);
        if let Some(words) = hold(&trial, &given, &mut tables) {
            differences += 1;
            println!("DIFFERENCE seed {} trial {number}, {words}", options.seed);
        }
        number += 1;
        if number == FIRST {
            cases += tables.library.cases();
        }
        if options.only.is_some() {
            break;
        }
    }
    let missed = table::print(&tables.library, &tables.program);
    if missed > 0 && options.only.is_none() {
        println!("{missed} classes were never met");
    }
    let (library, program) = (tables.library.cases(), tables.program.cases());
    println!("differ: {library} cases of the library, {program} cases of the program, {number} trials, {differences} differences");
    differences == 0 && (missed == 0 || options.only.is_some())
}

/// Trials with what was given for them: those made by chance first, those with long parts last. No planted fault needs the longest numbers.
fn kept_trials(options: &Options, program: &Program) -> Vec<(Trial, Given)> {
    let cases = options.cases.unwrap_or(50_000);
    let mut tables = Tables { library: Table::new(), program: Table::new() };
    let mut kept = Vec::new();
    let mut keep = |number| {
        NOW.store(number, Ordering::Relaxed);
        let trial = trial(options.seed, number);
        let given = run(program, &trial);
        hold(&trial, &given, &mut tables);
        kept.push((trial, given));
        tables.library.cases()
    };
    let mut number = FIRST;
    while keep(number) < cases {
        number += 1;
    }
    for number in (LONG..FIRST).chain(0..LONG_STREAMS) {
        keep(number);
    }
    kept
}

/// True where the paper differs from what was given.
fn differs((trial, given): &(Trial, Given)) -> bool {
    let loaded = book::load(trial.book());
    let printed = |found: &stream::Found| given.printed.as_ref().is_some_and(|printed| program::difference(trial, found, printed).is_some());
    book_words(trial, given).is_some()
        || held::load_difference(trial.book(), &loaded, &given.loaded).is_some()
        || table_words(trial, given.table(), &given.changed).is_some()
        || trial.streams.iter().zip(&given.shown).enumerate().any(|(i, (stream, shown))| {
            let said = held::paper(&loaded, stream);
            held::difference(stream, &said, shown).is_some() || i == 0 && printed(&said.0)
        })
}

/// True where a planted fault of the library shows.
fn differs_again((trial, given): &(Trial, Given)) -> bool {
    let loaded = book::load(trial.book());
    table_words(trial, given.table(), &given_by_tables(trial, given.table())).is_some()
        || trial.streams.iter().any(|stream| held::difference(stream, &held::paper(&loaded, stream), &library::judge(By::Book(trial.book()), stream)).is_some())
}

/// Each planted fault must be found. Those of the paper are held against what was given once; for those of the library the calls are repeated.
fn plants(options: &Options, program: &Program) -> bool {
    let kept = kept_trials(options, program);
    if kept.iter().any(differs) || locate::found_after(options.seed).is_some() {
        println!("the paper differs without a planted fault");
        return false;
    }
    let mut missed = 0;
    for &(plant, words) in plant::ALL {
        plant::set(plant);
        NOW.fetch_add(1, Ordering::Relaxed);
        let found = if plant::of_pairs(plant) {
            pairs::differs().then(|| "among all pairs:   ".to_string())
        } else if plant::of_fields(plant) {
            locate::found_after(options.seed).map(|fields| format!("after {fields:>5} fields:"))
        } else {
            let at = kept.iter().position(if plant::of_library(plant) { differs_again } else { differs });
            at.map(|at| format!("after {:>5} trials:", at + 1))
        };
        match found {
            Some(place) => println!("found {place} {words}"),
            None => {
                missed += 1;
                println!("NOT FOUND: {words}");
            }
        }
    }
    plant::set(Plant::Nothing);
    println!("differ: {} planted faults, {missed} not found", plant::ALL.len());
    missed == 0
}
