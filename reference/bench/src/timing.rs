//! Times of two or three versions, and the tables of them.

use std::hint::black_box;
use std::time::Instant;

/// Nanoseconds per round.
#[derive(Clone, Copy, Debug, PartialEq)]
pub struct Times {
    /// The proved library.
    pub library: f64,
    /// Plain floating point.
    pub plain: f64,
    /// The exact Rust version.
    pub exact: f64,
}

impl Times {
    /// The mean of each version.
    pub fn mean(all: &[Times]) -> Times {
        Times {
            library: mean_of(all, |times| times.library),
            plain: mean_of(all, |times| times.plain),
            exact: mean_of(all, |times| times.exact),
        }
    }

    /// Those of the section that takes the library longest.
    pub fn worst(all: &[Times]) -> Times {
        let slower = |left: &&Times, right: &&Times| left.library.total_cmp(&right.library);
        *all.iter().max_by(slower).expect("a section")
    }
}

/// Nanoseconds per round of two versions, or what comes of them.
#[derive(Clone, Copy, Debug, PartialEq)]
pub struct Pair {
    /// The version that is named first.
    pub first: f64,
    /// The other one.
    pub second: f64,
}

impl Pair {
    /// What comes of each.
    pub fn map(self, of: impl Fn(f64) -> f64) -> Pair {
        Pair {
            first: of(self.first),
            second: of(self.second),
        }
    }

    /// The mean of each version.
    pub fn mean(all: &[Pair]) -> Pair {
        Pair {
            first: mean_of(all, |pair| pair.first),
            second: mean_of(all, |pair| pair.second),
        }
    }

    /// That of the section with the greatest ratio.
    pub fn worst(all: &[Pair]) -> Pair {
        let ratio = |pair: &Pair| pair.first / pair.second;
        let order = |left: &&Pair, right: &&Pair| ratio(left).total_cmp(&ratio(right));
        *all.iter().max_by(order).expect("a section")
    }
}

/// The best of several repetitions, in which the two take turns.
pub fn pair(
    repetitions: u32,
    rounds: u64,
    mut first: impl FnMut(u64) -> u64,
    mut second: impl FnMut(u64) -> u64,
) -> Pair {
    let mut best = Pair {
        first: f64::INFINITY,
        second: f64::INFINITY,
    };
    for _ in 0..repetitions {
        best = Pair {
            first: best.first.min(time(rounds, &mut first)),
            second: best.second.min(time(rounds, &mut second)),
        };
    }
    best
}

/// Nanoseconds per round.
pub fn time(rounds: u64, mut sum: impl FnMut(u64) -> u64) -> f64 {
    let start = Instant::now();
    black_box(sum(black_box(rounds)));
    start.elapsed().as_nanos() as f64 / rounds as f64
}

/// The mean of a part of them.
fn mean_of<T>(all: &[T], part: fn(&T) -> f64) -> f64 {
    all.iter().map(part).sum::<f64>() / all.len() as f64
}

/// Width of a line's name.
const NAME: usize = 40;

/// The first line of a table of three versions.
pub fn head(what: &str) -> String {
    format!(
        "{what:<NAME$} {:>10} {:>10} {:>10} {:>12} {:>13}",
        "library", "f64", "exact", "library/f64", "exact/library"
    )
}

/// One line of it.
pub fn line(name: &str, times: Times) -> String {
    let Times {
        library,
        plain,
        exact,
    } = times;
    format!(
        "{name:<NAME$} {library:>10.1} {plain:>10.1} {exact:>10.1} {:>12.2} {:>13.1}",
        library / plain,
        exact / library
    )
}

/// A table of two versions and their ratio.
pub struct PairTable {
    /// What its numbers are.
    pub what: &'static str,
    /// The names of the two versions.
    pub versions: [&'static str; 2],
    /// Digits behind the point.
    pub digits: usize,
}

impl PairTable {
    /// The library beside the Rust version.
    pub const fn rust(what: &'static str) -> PairTable {
        PairTable::of(what, "Rust")
    }

    /// The library beside that of another checkout.
    pub const fn beside(what: &'static str) -> PairTable {
        PairTable::of(what, "beside")
    }

    const fn of(what: &'static str, other: &'static str) -> PairTable {
        PairTable {
            what,
            versions: ["library", other],
            digits: 1,
        }
    }

    /// Its first line.
    pub fn head(&self) -> String {
        let [first, second] = self.versions;
        let ratio = self.versions.join("/");
        format!("{:<NAME$} {first:>10} {second:>10} {ratio:>14}", self.what)
    }

    /// Another line.
    pub fn line(&self, name: &str, pair: Pair) -> String {
        let (Pair { first, second }, digits) = (pair, self.digits);
        format!(
            "{name:<NAME$} {first:>10.digits$} {second:>10.digits$} {:>14.2}",
            first / second
        )
    }
}
