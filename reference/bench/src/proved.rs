//! Work of a proved library, compared and timed beside other versions of it.

use crate::library::Library;
use crate::timing::{pair, time, Pair, Times};

/// Work of a proved library, which is asked for so many rounds of it.
pub trait Proved {
    /// The functions that are called.
    type Library: Library;
    /// What the numbers in a table are.
    const WHAT: &'static str;

    /// The name of a line in a table.
    fn name(&self) -> String;
    /// Rounds in each repetition.
    fn rounds(&self) -> u64;
    /// Whether a library has what is called; another checkout's may lack it.
    fn is_in(&self, _: &Self::Library) -> bool {
        true
    }
    /// So many rounds of a library. Answers something that depends on them.
    fn library(&self, library: &Self::Library, rounds: u64) -> u64;
    /// Says how a library differs from the Rust version, if it does.
    fn difference(&self, library: &Self::Library) -> Option<String>;
    /// The number in a table, for these nanoseconds a round.
    fn number(&self, nanoseconds: f64) -> f64 {
        nanoseconds
    }
}

/// Work that is also done in Rust.
pub trait InRust: Proved {
    /// So many rounds of the Rust version.
    fn rust(&self, rounds: u64) -> u64;
}

/// Work that is also done in plain floating point, and exactly in Rust.
pub trait Versions: Proved {
    /// Rounds of the exact version in each repetition.
    const EXACT_ROUNDS: u64;

    /// So many rounds in plain floating point.
    fn plain(&self, rounds: u64) -> u64;
    /// So many rounds of the exact Rust version.
    fn exact(&self, rounds: u64) -> u64;
}

/// What differs from the Rust version.
#[derive(Debug, Default)]
pub struct Differences {
    /// In this repository's libraries and versions.
    pub this: Vec<String>,
    /// In the libraries beside.
    beside: Vec<String>,
    /// Works that the libraries beside were compared in.
    compared: usize,
}

impl Differences {
    /// Compares this repository's library in these works and, if there is one, that
    /// beside.
    pub fn compare<P: Proved>(&mut self, works: &[P], beside: Option<P::Library>) {
        let of = |library| {
            let compared = works_in(works, &library);
            let difference = |work: &P| work.difference(&library);
            let differ: Vec<String> = compared.clone().filter_map(difference).collect();
            (differ, compared.count())
        };
        self.this.extend(of(P::Library::THIS).0);
        if let Some(other) = beside {
            let (differ, compared) = of(other);
            self.beside.extend(differ);
            self.compared += compared;
        }
    }

    /// Those with which nothing is timed. The libraries beside may be changed.
    pub fn that_stop(&self, changed: bool) -> Vec<&str> {
        let beside = self.beside.iter().filter(|_| !changed);
        self.this.iter().chain(beside).map(String::as_str).collect()
    }

    /// In how many works the libraries beside differ.
    pub fn beside(&self) -> String {
        let (differ, all) = (self.beside.len(), self.compared);
        format!("the library beside differs in {differ} of {all} works")
    }
}

/// Those of these works that a library has.
pub fn works_in<'a, P: Proved>(
    works: &'a [P],
    library: &'a P::Library,
) -> impl Iterator<Item = &'a P> + Clone {
    works.iter().filter(|work| work.is_in(library))
}

/// Of this repository's library and the Rust version.
pub fn beside_rust<P: InRust>(work: &P, repetitions: u32) -> Pair {
    by_turns(work, repetitions, |rounds| work.rust(rounds))
}

/// Of this repository's library and another one.
pub fn beside<P: Proved>(work: &P, other: &P::Library, repetitions: u32) -> Pair {
    by_turns(work, repetitions, |rounds| work.library(other, rounds))
}

/// Of this repository's library and another version.
fn by_turns<P: Proved>(work: &P, repetitions: u32, other: impl FnMut(u64) -> u64) -> Pair {
    let library = |rounds| work.library(&P::Library::THIS, rounds);
    let times = pair(repetitions, work.rounds(), library, other);
    times.map(|nanoseconds| work.number(nanoseconds))
}

/// The best of several repetitions, in which the three take turns.
pub fn times<V: Versions>(versions: &V, repetitions: u32) -> Times {
    let never = f64::INFINITY;
    let mut best = Times {
        library: never,
        plain: never,
        exact: never,
    };
    let proved = |rounds| versions.library(&V::Library::THIS, rounds);
    for _ in 0..repetitions {
        let library = time(versions.rounds(), proved);
        let plain = time(versions.rounds(), |rounds| versions.plain(rounds));
        let exact = time(V::EXACT_ROUNDS, |rounds| versions.exact(rounds));
        best = Times {
            library: best.library.min(library),
            plain: best.plain.min(plain),
            exact: best.exact.min(exact),
        };
    }
    best
}
