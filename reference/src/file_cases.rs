//! Tower files, whole, cut and damaged: the lines that the program
//! `file_cases` reads and what it has to print for each. Lines that are no case
//! are among them, with the message for each.

mod answers;
mod damage;
mod digest;
mod faults;
mod fields;
pub mod messages;
mod rules;
mod towers;
mod whole;
mod wrong;

use crate::outputs::OutputFile;

pub use answers::Program;
pub use digest::{digest, tower_values};
pub use fields::{fields, Field};
pub(crate) use towers::drawn as drawn_tower;
pub use towers::{crowded, largest, middle, roomy, smallest, triangle};

/// What a line asks for. A file is also the base file of the lines behind it;
/// before the first one the base file is empty.
#[derive(Clone, Debug, PartialEq, Eq)]
pub enum Case {
    /// `f`: a file, byte by byte.
    File(Vec<u8>),
    /// `c`: so many first bytes of the base file.
    Cut(usize),
    /// `s`: the base file with other bytes at these places.
    Set(Vec<(usize, u8)>),
    /// `a`: the base file with these bytes behind it.
    Add(Vec<u8>),
    /// `r`: the base file's tower is written into so many lent bytes.
    Room(usize),
}

impl Case {
    /// The line without its newline: a letter, then the numbers.
    pub fn text(&self) -> String {
        let bytes = |bytes: &[u8]| bytes.iter().map(u8::to_string).collect();
        let (letter, numbers): (&str, Vec<String>) = match self {
            Case::File(file) => ("f", bytes(file)),
            Case::Cut(end) => ("c", vec![end.to_string()]),
            Case::Set(pairs) => {
                let pair = |(place, byte): &(usize, u8)| format!("{place} {byte}");
                ("s", pairs.iter().map(pair).collect())
            }
            Case::Add(added) => ("a", bytes(added)),
            Case::Room(room) => ("r", vec![room.to_string()]),
        };
        let words = [vec![letter.to_string()], numbers].concat();
        words.join(" ")
    }

    /// The file that is read, over this base file.
    pub fn file(&self, base: &[u8]) -> Vec<u8> {
        let mut file = base.to_vec();
        match self {
            Case::File(whole) => file.clone_from(whole),
            Case::Cut(end) => file = base[..*end].to_vec(),
            Case::Set(pairs) => pairs.iter().for_each(|(place, byte)| file[*place] = *byte),
            Case::Add(added) => file.extend(added),
            Case::Room(_) => {}
        }
        file
    }
}

/// What a line means.
#[derive(Clone, Debug, PartialEq, Eq)]
pub enum Meaning {
    /// A case.
    Case(Case),
    /// None; the message is printed after `error: `.
    Error(&'static str),
}

/// A line of `stdin`.
#[derive(Clone, Debug, PartialEq, Eq)]
pub struct Line {
    /// Without its newline.
    pub text: String,
    /// What is to be answered.
    pub meaning: Meaning,
}

impl From<Case> for Line {
    fn from(case: Case) -> Line {
        Line {
            text: case.text(),
            meaning: Meaning::Case(case),
        }
    }
}

/// Lines of one kind. But for the first part, which has the empty base file,
/// each begins with a file of its own.
#[derive(Clone, Debug, PartialEq, Eq)]
pub struct Part {
    /// What they are.
    pub name: &'static str,
    /// In their order.
    pub lines: Vec<Line>,
}

/// All lines, the same each time.
pub fn parts() -> Vec<Part> {
    let cases = [
        ("cuts", whole::cuts()),
        ("bytes", whole::bytes()),
        ("rooms", whole::rooms()),
        ("added", whole::added()),
        ("fields", fields::cases()),
        ("rules", rules::cases()),
        ("pairs of faults", faults::pairs()),
        ("cuts of faults", faults::cuts()),
        ("drawn", damage::drawn()),
        ("damage", damage::cases()),
    ];
    let part = |(name, cases): (_, Vec<Case>)| Part {
        name,
        lines: cases.into_iter().map(Line::from).collect(),
    };
    let mut parts = vec![Part {
        name: "before a file",
        lines: wrong::before_a_file(),
    }];
    parts.extend(cases.map(part));
    parts.push(Part {
        name: "wrong",
        lines: wrong::lines(),
    });
    parts
}

/// `stdin` and `stdout` of the program.
pub fn files() -> Vec<OutputFile> {
    let (mut stdin, mut stdout) = (String::new(), String::new());
    let mut program = Program::default();
    for line in parts().iter().flat_map(|part| &part.lines) {
        stdin += &format!("{}\n", line.text);
        stdout += &format!("{}\n", program.answer(&line.meaning));
    }
    let files = [("stdin", stdin), ("stdout", stdout)];
    let file = |(name, text): (_, String)| OutputFile {
        name,
        bytes: text.into_bytes(),
    };
    files.map(file).to_vec()
}
