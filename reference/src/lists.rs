//! Drawn lists of calls, sound and damaged, millions of hangings and take-downs on one
//! tower, and another one under rising pressures: what the program `lists` prints.

mod answers;
mod calls;
mod draws;
mod files;
mod million;
mod pressures;

use crate::file_cases::digest;
use crate::outputs::OutputFile;
use crate::refusal::ANSWERS;
use crate::service::Service;
use crate::vectors::Call;

pub use answers::{Answer, LENT_BYTE, LENT_NUMBER, NONE_OVER};
pub use draws::{Draws, Key};
pub use files::{sound_file, Size};
pub use million::{million, Million, HUNG};
pub use pressures::{pressures, wind, Pressures, SECTIONS};

/// How many lists there are.
pub const LISTS: u64 = 2_000;

/// How many calls each of them has.
pub const CALLS: u64 = 100;

/// The key of all lists.
const ALL_LISTS: Key = Key(1);

/// How often each answer came.
pub type Counts = [u64; ANSWERS];

/// A call of a list, and what was answered.
#[derive(Clone, Debug, PartialEq, Eq)]
pub struct Step {
    /// With its arguments.
    pub call: Call,
    /// On the service as it was then.
    pub answer: Answer,
}

/// The calls of one list from a fresh service on. Each is drawn for the tower that
/// stands then.
pub fn list(place: u64) -> Vec<Step> {
    let key = ALL_LISTS.part(place);
    let size = Size::of(key);
    let mut service = Service::fresh();
    let step = |place| {
        let call = calls::call(key.part(place), size, &service);
        let answer = Answer::to(&call, &mut service);
        Step { call, answer }
    };
    (0..CALLS).map(step).collect()
}

/// The digest of a list's answers and of all that it lent.
pub fn list_digest(steps: &[Step]) -> u64 {
    let values = |step: &Step| [step.answer.number.into(), step.answer.rest];
    digest(steps.iter().flat_map(values))
}

/// All lists, the same each time.
pub fn all_lists() -> Vec<Vec<Step>> {
    (0..LISTS).map(list).collect()
}

/// What the program prints.
pub fn text(lists: &[Vec<Step>], million: &Million, pressures: &Pressures) -> String {
    let mut lines = String::new();
    let mut counts = [0; ANSWERS];
    for (place, steps) in lists.iter().enumerate() {
        let before = counts[0];
        for step in steps {
            counts[step.answer.number as usize] += 1;
        }
        let accepted = counts[0] - before;
        lines += &line("list", [place as u64, accepted, list_digest(steps)]);
    }
    lines + &counts_text("answer", &counts) + &million.text() + &pressures.text()
}

/// A name, and numbers behind it.
fn line(name: &str, numbers: impl IntoIterator<Item = u64>) -> String {
    let words = numbers.into_iter().map(|number| format!(" {number}"));
    format!("{name}{}\n", words.collect::<String>())
}

/// A line for each answer that came.
fn counts_text(name: &str, counts: &Counts) -> String {
    let counted = counts.iter().enumerate().filter(|(_, count)| **count > 0);
    counted
        .map(|(number, count)| line(name, [number as u64, *count]))
        .collect()
}

/// `stdout` of the program.
pub fn files() -> Vec<OutputFile> {
    vec![OutputFile {
        name: "stdout",
        bytes: text(&all_lists(), &million(), &pressures()).into_bytes(),
    }]
}
