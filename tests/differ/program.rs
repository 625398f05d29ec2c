//! Runs the judging program on a trial, and holds what it prints against the paper.

use crate::rng::Rng;
use crate::stream::{lines, parts, Found};
use crate::trial::{Handed, Trial};
use std::fs;
use std::io::{Read, Write};
use std::path::{Path, PathBuf};
use std::process::{Command, Stdio};
use std::sync::mpsc;
use std::thread;
use std::time::Duration;

/// A program still at one trial after this time is ended.
const LONGEST_RUN: Duration = Duration::from_secs(60);

/// What the program printed, and its status.
pub type Printed = (Vec<u8>, Option<i32>);

/// The judging program and the folder that it runs in.
pub struct Program {
    pub path: PathBuf,
    pub folder: PathBuf,
}

impl Program {
    /// What the program prints for a trial, and its status; a program that does not end is ended.
    pub fn run(&self, trial: &Trial, handed: &Handed) -> std::io::Result<Printed> {
        let stream = &trial.streams[0].bytes;
        let file = self.folder.join("book.txt");
        match &trial.book {
            Some(bytes) => fs::write(&file, bytes)?,
            None => drop(fs::remove_file(&file)),
        }
        let mut command = Command::new(&self.path);
        let mut child = command.current_dir(&self.folder).stdin(Stdio::piped()).stdout(Stdio::piped()).spawn()?;
        let mut stdin = child.stdin.take().expect("stdin");
        let mut stdout = child.stdout.take().expect("stdout");
        let (done, wait) = mpsc::channel();
        thread::scope(|scope| {
            // A program that refuses the book need not read its input: a write that fails is no fault.
            scope.spawn(move || drop(write_pieces(&mut stdin, stream, handed.pieces)));
            let reader = scope.spawn(move || {
                let mut output = Vec::new();
                let read = stdout.read_to_end(&mut output);
                let _ = done.send(());
                read.map(|_| output)
            });
            if wait.recv_timeout(LONGEST_RUN).is_err() {
                child.kill()?;
            }
            let output = reader.join().expect("the reading thread")?;
            Ok((output, child.wait()?.code()))
        })
    }
}

/// Writes the stream whole, or in pieces of 1 to 40 bytes.
fn write_pieces(to: &mut impl Write, mut bytes: &[u8], pieces: Option<u64>) -> std::io::Result<()> {
    let Some(seed) = pieces else { return to.write_all(bytes) };
    let mut rng = Rng::new(seed, 0);
    while !bytes.is_empty() {
        let (piece, rest) = bytes.split_at(rng.range(1, 40).min(bytes.len()));
        to.write_all(piece)?;
        to.flush()?;
        bytes = rest;
    }
    Ok(())
}

/// None where the output is what the paper says, else words about the first difference.
pub fn difference(trial: &Trial, found: &Found, (output, status): &Printed) -> Option<String> {
    let want = lines(found);
    let text: String = want.iter().map(|line| format!("{line}\n")).collect();
    if text.as_bytes() == output && *status == Some(0) {
        return None;
    }
    let got: Vec<String> = output.split_inclusive(|&b| b == b'\n').map(|l| escaped(l.strip_suffix(b"\n").unwrap_or(l))).collect();
    let at = (0..want.len().max(got.len())).find(|&i| want.get(i) != got.get(i)).unwrap_or(0);
    let record = match found {
        Found::Judged(_) if at > 0 => parts(&trial.streams[0].bytes).get(at - 1).map_or("none".to_string(), |part| escaped(part.bytes)),
        _ => "none".to_string(),
    };
    let none = "no such line".to_string();
    let (paper, program) = (want.get(at).unwrap_or(&none), got.get(at).unwrap_or(&none));
    let book = trial.book.as_ref().map_or("absent".to_string(), |bytes| escaped(bytes));
    let ended = format!("status {status:?}, {} of {} lines", got.len(), want.len());
    Some(format!("book: {book}\nrecord {at}: {record}\npaper:   {paper}\nprogram: {program} ({ended})"))
}

/// Bytes outside 0x20 to 0x7E as \xNN; the middle of very long ones left out.
pub fn escaped(bytes: &[u8]) -> String {
    let letter = |&b: &u8| if (0x20..0x7F).contains(&b) { (b as char).to_string() } else { format!("\\x{b:02X}") };
    let shown = |part: &[u8]| part.iter().map(letter).collect::<String>();
    if bytes.len() <= 4000 {
        return shown(bytes);
    }
    format!("{} ... {} bytes in all ... {}", shown(&bytes[..1000]), bytes.len(), shown(&bytes[bytes.len() - 1000..]))
}

/// A folder of its own for `book.txt`.
pub fn folder() -> std::io::Result<PathBuf> {
    let path = std::env::temp_dir().join(format!("differ-{}", std::process::id()));
    fs::create_dir(&path)?;
    Ok(path)
}

pub fn remove(folder: &Path) {
    let _ = fs::remove_dir_all(folder);
}
