//! The timed tower files, and the two versions of reading and writing them.

use crate::lent::difference_in;
use crate::library::{Files, Library};
use crate::proved::{InRust, Proved};
use reference::file::{read, write};
use reference::file_cases::{largest, middle, smallest, triangle};
use reference::tower::Tower;
use std::hint::black_box;

/// Bytes that are read or written in each repetition, at least.
const BYTES: u64 = 4_000_000;

/// A tower file to be read or written.
pub struct TimedFile {
    name: &'static str,
    work: Work,
    bytes: Vec<u8>,
    tower: Tower,
}

/// What is timed.
#[derive(Clone, Copy, Debug, PartialEq, Eq)]
pub enum Work {
    /// From bytes to a tower.
    Read,
    /// From a tower to bytes.
    Write,
}

impl Work {
    /// Both, in the order of the table.
    pub const ALL: [Work; 2] = [Work::Read, Work::Write];

    /// Its name in the table.
    fn name(self) -> &'static str {
        match self {
            Work::Read => "read",
            Work::Write => "write",
        }
    }
}

impl TimedFile {
    /// Each work on the file of a tower.
    pub fn both(name: &'static str, tower: &Tower) -> [TimedFile; 2] {
        Work::ALL.map(|work| TimedFile {
            name,
            work,
            bytes: write(tower),
            tower: tower.clone(),
        })
    }

    /// How many bytes it has.
    pub fn bytes(&self) -> usize {
        self.bytes.len()
    }

    /// So many rounds of a proved library into these lent bytes, and its answer.
    fn put(&self, library: &Files, rounds: u64, out: &mut [u8]) -> u64 {
        let call = match self.work {
            Work::Read => Files::read,
            Work::Write => Files::write,
        };
        call(library, black_box(&self.bytes), rounds, out)
    }
}

impl Proved for TimedFile {
    type Library = Files;
    const WHAT: &'static str = "MB/s of a tower file";

    fn name(&self) -> String {
        let (name, bytes, work) = (self.name, self.bytes(), self.work.name());
        format!("{name}, {bytes} bytes, {work}")
    }

    fn rounds(&self) -> u64 {
        BYTES.div_ceil(self.bytes() as u64)
    }

    /// Answers the file's length.
    fn library(&self, library: &Files, rounds: u64) -> u64 {
        let mut out = vec![0; self.bytes()];
        let answer = self.put(library, rounds, &mut out);
        assert_eq!(answer, self.bytes() as u64, "{}", self.name());
        black_box(out);
        answer
    }

    /// From what the Rust version writes after reading the file.
    fn difference(&self, library: &Files) -> Option<String> {
        let tower = read(&self.bytes).expect("a tower's file");
        let differs = difference_in(&write(&tower), 165, |out| self.put(library, 1, out));
        differs.map(|differs| format!("{}: {} {differs}", self.name(), library.whose()))
    }

    fn number(&self, nanoseconds: f64) -> f64 {
        megabytes(self.bytes(), nanoseconds)
    }
}

impl InRust for TimedFile {
    fn rust(&self, rounds: u64) -> u64 {
        for _ in 0..rounds {
            match self.work {
                Work::Read => drop(black_box(read(black_box(&self.bytes)))),
                Work::Write => drop(black_box(write(black_box(&self.tower)))),
            }
        }
        self.bytes.len() as u64
    }
}

/// Megabytes (10⁶ bytes) a second, for so many bytes in so many nanoseconds.
pub fn megabytes(bytes: usize, nanoseconds: f64) -> f64 {
    bytes as f64 * 1_000.0 / nanoseconds
}

/// The towers whose files are timed, that of the largest file first.
pub fn named_towers() -> [(&'static str, Tower); 4] {
    [
        ("largest", largest()),
        ("middle", middle()),
        ("triangle", triangle()),
        ("smallest", smallest()),
    ]
}

/// Their files, each read and written.
pub fn timed_files() -> Vec<TimedFile> {
    let named = named_towers();
    let both = |(name, tower): &(&'static str, Tower)| TimedFile::both(name, tower);
    named.iter().flat_map(both).collect()
}
