//! How many cases fell on each class.

use crate::frames::{count, FRAMES};
use crate::number::{Written, CLASSES};
use crate::stream::{parts, Found, Verdict, LONGEST};
use crate::text::numbers;

/// Valid, invalid, 11 to 15, starts refused with 21 and 23, books 0 to 9; the numbers of frames met; and the classes of the numbers in texts.
pub struct Table {
    verdicts: [u64; 7],
    starts: [u64; 2],
    books: [u64; 10],
    frames: [u64; FRAMES + 1],
    numbers: [u64; CLASSES],
}

const NAMES: [&str; 7] = ["valid", "invalid", "11", "12", "13", "14", "15"];

impl Table {
    pub fn new() -> Table {
        Table { verdicts: [0; 7], starts: [0; 2], books: [0; 10], frames: [0; FRAMES + 1], numbers: [0; CLASSES] }
    }

    /// Counts what was found with a work buffer of this length.
    pub fn count(&mut self, found: &Found, work: usize) {
        match found {
            Found::Book(number, _) => self.books[*number as usize] += 1,
            Found::Start(number) => self.starts[usize::from(*number == 23)] += 1,
            Found::Judged(list) => {
                self.books[0] += 1;
                self.frames[(work / 96).min(FRAMES)] += 1;
                for (verdict, _) in list {
                    self.verdicts[match verdict {
                        Verdict::Valid => 0,
                        Verdict::Invalid => 1,
                        Verdict::Refused(number, _) => *number as usize - 9,
                    }] += 1;
                }
            }
        }
    }

    /// Counts a book without a stream, by the number of its refusal.
    pub fn count_book(&mut self, number: u32) {
        self.books[number as usize] += 1;
    }

    /// Counts the numbers of a stream's texts that are valid or invalid with a work buffer of this length.
    pub fn count_numbers(&mut self, found: &Found, stream: &[u8], work: usize) {
        if !matches!(found, Found::Judged(_)) {
            return;
        }
        for part in parts(stream).iter().filter(|part| !part.head && part.bytes.len() <= LONGEST) {
            for number in numbers(part.bytes, count(work)) {
                for (met, (_, own)) in self.numbers.iter_mut().zip(Written::new(number).classes()) {
                    *met += u64::from(own);
                }
            }
        }
    }

    /// Verdicts, refused books and refused starts.
    pub fn cases(&self) -> u64 {
        self.verdicts.iter().sum::<u64>() + self.books[1..].iter().sum::<u64>() + self.starts.iter().sum::<u64>()
    }

    /// The classes with their counts.
    fn classes(&self) -> Vec<(String, u64)> {
        let records = NAMES.iter().zip(self.verdicts).map(|(name, count)| (format!("record {name}"), count));
        let books = self.books.iter().enumerate().map(|(number, &count)| (format!("book   {number}"), count));
        let numbers = Written::new(b"0").classes().into_iter().zip(self.numbers).map(|((name, _), count)| (format!("number {name}"), count));
        let starts = [("start  21".to_string(), self.starts[0]), ("start  23".to_string(), self.starts[1])];
        records.chain(starts).chain(books).chain(numbers).collect()
    }
}

/// Prints the tables of library and program; gives the number of classes that no case fell on. The program's start is never refused.
pub fn print(library: &Table, program: &Table) -> usize {
    println!("{:<20}{:>10}{:>10}", "", "library", "program");
    let mut missed = 0;
    for ((name, first), (_, second)) in library.classes().iter().zip(program.classes()) {
        println!("{name:<20}{first:>10}{second:>10}");
        missed += usize::from(*first == 0) + usize::from(second == 0 && !name.starts_with("start"));
    }
    let met = library.frames[1..].iter().filter(|&&count| count > 0).count();
    println!("{met} of {FRAMES} numbers of frames met");
    missed + FRAMES - met
}
