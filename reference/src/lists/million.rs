//! Hangings and take-downs on one tower, of which a million and more are accepted,
//! between two reports on the same items.

use super::draws::{Draws, Key};
use super::files::{file, item, Extent};
use super::{counts_text, line, Counts};
use crate::file_cases::digest;
use crate::refusal::{Refusal, ANSWERS};
use crate::report::ROW;
use crate::service::Service;
use crate::tower::{Item, Tower};
use crate::vectors::number;

/// The key of the tower, the items and the calls.
const KEY: Key = Key(2);

/// All calls between the first report and the last.
pub const CALLS: u32 = 3_000_000;

/// Sections of the tower.
const SECTIONS: u32 = 6;

/// Numbers of the items that are hung and taken down: 0 up to this.
pub const NUMBERS: u32 = 100;

/// The items that hang at both reports: those with the numbers below this.
pub const HUNG: u32 = 12;

/// So many calls most of which hang, then so many most of which take down.
const TIDE: u32 = 1_000;

/// What the program tells of this list.
#[derive(Clone, Debug, PartialEq, Eq)]
pub struct Million {
    /// The tower at the first report, with its items.
    pub tower: Tower,
    /// The answers of all calls between the first report and the last.
    pub counts: Counts,
    /// The first report.
    pub start: Vec<u64>,
    /// A report before the calls that bring the first items back.
    pub amid: Vec<u64>,
    /// The last report.
    pub end: Vec<u64>,
}

/// Runs the list.
pub fn million() -> Million {
    let mut service = erected();
    let tower = service.tower().expect("a tower").clone();
    let mut counts = [0; ANSWERS];
    let mut count = |turned: Result<(), Refusal>| counts[number(turned) as usize] += 1;
    let start = report(&service);
    for place in 0..CALLS - NUMBERS - HUNG {
        count(any(&mut service, place));
    }
    let amid = report(&service);
    for number in 0..NUMBERS {
        count(service.take_down(number as u16));
    }
    for number in (0..HUNG).rev() {
        count(service.hang(numbered(number)));
    }
    let end = report(&service);
    Million {
        tower,
        counts,
        start,
        amid,
        end,
    }
}

/// A tower under a wind, with its first items hung in rising order.
fn erected() -> Service {
    let mut service = Service::fresh();
    let draws = Draws { key: KEY, odds: 0 };
    let extent = Extent {
        sections: SECTIONS,
        items: 0,
    };
    let accepted = "the tower, its items and the wind are sound";
    service.erect(&file(draws.part(0), extent)).expect(accepted);
    for number in 0..HUNG {
        service.hang(numbered(number)).expect(accepted);
    }
    let pressures = [1_000, 950, 900, 850, 800, 750];
    service.wind(4, 0, 1_000, &pressures).expect(accepted);
    service
}

/// The item of this number, the same each time.
fn numbered(number: u32) -> Item {
    let draws = Draws { key: KEY, odds: 0 };
    let draws = draws.part(1).part(number.into());
    item(draws, number as u16, SECTIONS)
}

/// Hangs an item or takes one down; which of both mostly, changes with the tide.
fn any(service: &mut Service, place: u32) -> Result<(), Refusal> {
    let key = KEY.part(2).part(place.into());
    let number = key.within(0, 0..=NUMBERS - 1);
    let rising = place / TIDE % 2 == 0;
    let against = key.once_in(1, 4);
    if rising != against {
        service.hang(numbered(number))
    } else {
        service.take_down(number as u16)
    }
}

fn report(service: &Service) -> Vec<u64> {
    let mut rows = vec![0; ROW * SECTIONS as usize];
    service.report(&mut rows).expect("a tower under a wind");
    rows
}

impl Million {
    /// How many numbers of the first report and the last are equal.
    pub fn equal(&self) -> usize {
        let pairs = self.start.iter().zip(&self.end);
        pairs.filter(|(first, last)| first == last).count()
    }

    /// The lines that the program prints.
    pub fn text(&self) -> String {
        [
            report_text("start", &self.start),
            report_text("amid", &self.amid),
            report_text("end", &self.end),
            counts_text("million", &self.counts),
            line("equal", [self.equal() as u64]),
        ]
        .concat()
    }
}

/// The rows of a report, then its digest.
fn report_text(name: &str, rows: &[u64]) -> String {
    let lines = rows.chunks(ROW).map(|row| line(name, row.iter().copied()));
    let digest = digest(rows.iter().copied());
    lines.chain([line("digest", [digest])]).collect()
}
