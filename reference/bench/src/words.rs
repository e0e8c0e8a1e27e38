//! The words on the command line.

/// What is printed for `--help`.
pub const USAGE: &str = "\
usage: bench [force] [file] [calls] [pipe] [--each] [--beside [--changed]]
             [--towerd PROGRAM]
       bench --help

force: checks that the proved library and the exact Rust version have the same
forces, then prints the nanoseconds per section force of the library, of a plain
f64 version and of the exact version, for random sections with supercritical
members and without, for sections with one supercritical tube (two values each)
and with eight (nine values): the mean, and the section that takes the library
longest.

file: checks that the proved library and the Rust version write the same bytes
for the tower files that they read, then prints the megabytes (10^6 bytes) a
second that each reads and writes of the largest file. Then the nanoseconds in
which the library fetches a field of two or four bytes of it, byte by byte and as
one number; these numbers are compared with the Rust version's too.

calls: checks that the proved library and the exact Rust version report the same
numbers for largest towers, with four supercritical tubes a section, with one and
without, then prints the nanoseconds per report of the library, of a plain f64
version and of the exact version; and of the library and of the Rust version those
per hang or take down, of a dish beside 63 items and of the first of 64, per erect,
and per copy of a state, from which both report the same numbers.

pipe: starts the service program and prints how many requests a second it answers
through a pipe: hangings and take-downs, reports, and round trips, each of which
waits for the last answer; then ten million hangings and take-downs on one
service, the slowest and the fastest million of them, and its rates after them
beside those of a fresh tower. Every answer is compared.

Without one of the four words all. All figures but those of the ten million are
the best of several repetitions in one run. Status 1 if a number, a byte or an
answer differs, but for what --changed allows.

  --each            also print a line for each section, for smaller files and
                    towers, and for each million
  --beside          with force, file or calls: also compare the libraries that
                    reference/benchmark --beside FOLDER links, and time each by
                    turns with this repository's, but for functions that they
                    lack; of the sections the mean, and the one with the greatest
                    ratio
  --changed         with --beside: where those libraries differ, say in how many
                    works and time them all the same
  --towerd PROGRAM  the service program that pipe starts
  --help            print this
";

/// What is timed.
#[derive(Clone, Copy, Debug, Default, PartialEq, Eq)]
pub struct Parts {
    /// The section force.
    pub force: bool,
    /// Reading and writing the tower file.
    pub file: bool,
    /// Calls of the library.
    pub calls: bool,
    /// Requests through a pipe.
    pub pipe: bool,
}

impl Parts {
    /// All four.
    pub const ALL: Parts = Parts {
        force: true,
        file: true,
        calls: true,
        pipe: true,
    };

    /// The words for those that call a library.
    fn of_libraries(self) -> Vec<&'static str> {
        let words = [
            ("force", self.force),
            ("file", self.file),
            ("calls", self.calls),
        ];
        let named = words.into_iter().filter(|(_, named)| *named);
        named.map(|(word, _)| word).collect()
    }
}

/// What is checked and timed, and how.
#[derive(Clone, Debug, Default, PartialEq, Eq)]
pub struct Run {
    /// What.
    pub parts: Parts,
    /// With a line for each.
    pub each: bool,
    /// With the libraries beside.
    pub beside: bool,
    /// Those may differ.
    pub changed: bool,
    /// The service program; empty where none is named and none is needed.
    pub towerd: String,
}

/// What the words ask for.
#[derive(Clone, Debug, PartialEq, Eq)]
pub enum Command {
    /// Print the usage.
    Help,
    /// Check and time.
    Run(Run),
}

/// Reads the words, or says what is wrong with them. The libraries beside of these
/// parts are linked.
pub fn parse(words: &[String], linked: Parts) -> Result<Command, String> {
    let mut run = Run::default();
    let mut words = words.iter();
    while let Some(word) = words.next() {
        match word.as_str() {
            "force" => run.parts.force = true,
            "file" => run.parts.file = true,
            "calls" => run.parts.calls = true,
            "pipe" => run.parts.pipe = true,
            "--each" => run.each = true,
            "--beside" => run.beside = true,
            "--changed" => run.changed = true,
            "--towerd" => run.towerd = words.next().ok_or("--towerd names no program")?.clone(),
            "--help" => return Ok(Command::Help),
            other => return Err(format!("unknown word: {other}")),
        }
    }
    if run.parts == Parts::default() {
        run.parts = Parts::ALL;
    }
    if run.parts.pipe && run.towerd.is_empty() {
        return Err("pipe needs --towerd PROGRAM".into());
    }
    if run.beside {
        all_beside(run.parts, linked)?;
    } else if run.changed {
        return Err("--changed goes with --beside".into());
    }
    Ok(Command::Run(run))
}

/// Says what is wrong where none of these calls a library, or where the library
/// beside of one is not linked.
fn all_beside(parts: Parts, linked: Parts) -> Result<(), String> {
    let (words, linked) = (parts.of_libraries(), linked.of_libraries());
    if words.is_empty() {
        return Err("--beside goes with force, file or calls".into());
    }
    match words.iter().find(|word| !linked.contains(word)) {
        Some(word) => Err(format!(
            "no library beside is linked: reference/benchmark {word} --beside FOLDER"
        )),
        None => Ok(()),
    }
}
