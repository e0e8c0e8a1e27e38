//! The fields of two and of four bytes in a tower file, fetched in two ways.

use crate::file::named_towers;
use crate::lent::difference_in;
use crate::library::{self, Fields};
use crate::timing::{pair, Pair, PairTable};
use reference::file::write;
use reference::file_cases;
use reference::tower::Tower;
use std::hint::black_box;

/// Of the two ways.
pub const TABLE: PairTable = PairTable {
    what: "ns per field of a tower file",
    versions: [Fetch::Byte.name(), Fetch::Word.name()],
    digits: 2,
};

/// Fields that are fetched in each repetition, at least.
const FIELDS: u64 = 4_000_000;

/// How a field is fetched.
#[derive(Clone, Copy, Debug, PartialEq, Eq)]
pub enum Fetch {
    /// Byte by byte.
    Byte,
    /// As one number.
    Word,
}

impl Fetch {
    /// Both, in the order of the table.
    pub const ALL: [Fetch; 2] = [Fetch::Byte, Fetch::Word];

    /// Its name in the table.
    pub const fn name(self) -> &'static str {
        match self {
            Fetch::Byte => "byte",
            Fetch::Word => "word",
        }
    }

    /// The library's numbers of these fields in lent memory, and its answer.
    pub fn library(self, fields: &Fields, out: &mut [u64]) -> u64 {
        match self {
            Fetch::Byte => library::byte_fields(fields, out),
            Fetch::Word => library::word_fields(fields, out),
        }
    }
}

/// Where the fields of a file begin.
#[derive(Debug, PartialEq, Eq)]
pub struct Places {
    /// Those of two bytes.
    pub twos: Vec<u64>,
    /// Those of four.
    pub fours: Vec<u64>,
}

impl Places {
    /// Those of a tower's file.
    pub fn of(tower: &Tower) -> Places {
        let fields = file_cases::fields(tower);
        let places = |bytes| {
            let of_bytes = fields.iter().filter(|field| field.bytes == bytes);
            of_bytes.map(|field| field.place as u64).collect()
        };
        Places {
            twos: places(2),
            fours: places(4),
        }
    }

    /// These places in a file.
    pub fn in_file<'a>(&'a self, file: &'a [u8]) -> Fields<'a> {
        Fields {
            file,
            twos: &self.twos,
            fours: &self.fours,
        }
    }

    /// How many fields have two bytes or four.
    pub fn count(&self) -> usize {
        self.twos.len() + self.fours.len()
    }
}

/// A tower file whose fields are timed.
pub struct TimedFields {
    /// What it is.
    pub name: &'static str,
    file: Vec<u8>,
    places: Places,
}

impl TimedFields {
    /// Those of a tower's file.
    pub fn new(name: &'static str, tower: &Tower) -> TimedFields {
        TimedFields {
            name,
            file: write(tower),
            places: Places::of(tower),
        }
    }

    /// How many they are.
    pub fn count(&self) -> usize {
        self.places.count()
    }

    fn fields(&self) -> Fields<'_> {
        self.places.in_file(&self.file)
    }

    /// Says where the library's numbers differ from those of the Rust version, if
    /// they do.
    pub fn difference(&self, fetch: Fetch) -> Option<String> {
        let (name, fields) = (self.name, self.fields());
        let differs = difference_in(&numbers(&fields), 165, |out| fetch.library(&fields, out));
        differs.map(|differs| format!("{name}, fields by {}: the library {differs}", fetch.name()))
    }

    /// So many rounds of the library, and how many fields there are.
    fn rounds(&self, fetch: Fetch, rounds: u64) -> u64 {
        let count = self.count() as u64;
        let mut out = vec![0; self.count()];
        for _ in 0..rounds {
            let answer = fetch.library(black_box(&self.fields()), &mut out);
            assert_eq!(answer, count, "{}", self.name);
        }
        black_box(out);
        count
    }

    /// Nanoseconds a field, the best of several repetitions.
    pub fn times(&self, repetitions: u32) -> Pair {
        let [first, second] = Fetch::ALL.map(|fetch| move |rounds| self.rounds(fetch, rounds));
        let count = self.count();
        let times = pair(repetitions, FIELDS.div_ceil(count as u64), first, second);
        times.map(|nanoseconds| nanoseconds / count as f64)
    }
}

/// The numbers of the fields in Rust's own way, `u64::MAX` where fewer bytes remain.
pub fn numbers(fields: &Fields) -> Vec<u64> {
    let rest = |place: &u64| fields.file.get(usize::try_from(*place).ok()?..);
    let two = |place| Some(u16::from_be_bytes(*rest(place)?.first_chunk()?).into());
    let four = |place| Some(u32::from_be_bytes(*rest(place)?.first_chunk()?).into());
    let twos = fields.twos.iter().map(two);
    let all = twos.chain(fields.fours.iter().map(four));
    all.map(|number| number.unwrap_or(u64::MAX)).collect()
}

/// The fields of all timed files, those of the largest first.
pub fn timed_fields() -> Vec<TimedFields> {
    let named = named_towers();
    let fields = named
        .iter()
        .map(|(name, tower)| TimedFields::new(name, tower));
    fields.collect()
}
