//! Copies of a state, in the library and in Rust.

use crate::calls::{largest, mast, TimedTower};
use crate::library::{Calls, Library};
use crate::proved::{InRust, Proved};
use std::hint::black_box;

/// A tower under a wind, whose state is copied.
pub struct TimedCopy {
    /// The tower.
    pub on: TimedTower,
}

/// The versions answer how many reports from the last copy are accepted: the one
/// that the library makes.
impl Proved for TimedCopy {
    type Library = Calls;
    const WHAT: &'static str = "ns per copy of a state";

    fn name(&self) -> String {
        format!("{} sections, {} items", self.on.sections(), self.on.items())
    }

    fn rounds(&self) -> u64 {
        20_000
    }

    fn is_in(&self, library: &Calls) -> bool {
        library.keep(&self.on.windy(), 0, &mut []).is_some()
    }

    fn library(&self, library: &Calls, rounds: u64) -> u64 {
        let mut lent = self.on.lent();
        let accepted = library.keep(&self.on.windy(), rounds, &mut lent);
        black_box(lent);
        accepted.expect("it is in it")
    }

    fn difference(&self, library: &Calls) -> Option<String> {
        let keep = |lent: &mut [u64]| {
            library
                .keep(&self.on.windy(), 3, lent)
                .expect("it is in it")
        };
        let differs = self.on.report_difference(keep)?;
        Some(format!(
            "a copy, {}: {} {differs}",
            self.name(),
            library.whose()
        ))
    }
}

impl InRust for TimedCopy {
    fn rust(&self, rounds: u64) -> u64 {
        let mut kept = self.on.service().clone();
        for _ in 0..rounds {
            kept = black_box(self.on.service()).clone();
            black_box(&kept);
        }
        u64::from(kept.report(&mut self.on.lent()).is_ok())
    }
}

/// Those that are timed, the largest first.
pub fn timed_copies() -> Vec<TimedCopy> {
    [largest(), mast()].map(|on| TimedCopy { on }).into()
}
