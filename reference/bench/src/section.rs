//! The timed sections, and the three versions of their forces.

use crate::library::{Forces, Library};
use crate::proved::{Proved, Versions};
use crate::tubes;
use reference::areas::areas;
use reference::cases::{random_cases, Case};
use reference::plain::whole_force;
use std::hint::black_box;

/// Pressures of a section, each 1 N/m² below the last.
pub const PRESSURES: u64 = 16;

/// A section to be timed.
pub struct Timed {
    name: String,
    /// At its highest pressure.
    pub case: Case,
    words: Vec<u64>,
    /// The items' sum in m².
    items: f64,
}

impl Timed {
    /// The words are the numbers of the case up to its groups, then the items'
    /// sum.
    fn new(name: String, case: Case) -> Timed {
        let mut words = case.section_numbers();
        words.push(case.item_sum());
        Timed {
            name,
            items: case.item_sum() as f64 / 1e12,
            words,
            case,
        }
    }

    /// The pressure of a round.
    fn pressure(&self, round: u64) -> u16 {
        self.case.pressure() - (round % PRESSURES) as u16
    }
}

/// Sums of so many forces.
impl Proved for Timed {
    type Library = Forces;
    const WHAT: &'static str = "ns per section force";

    fn name(&self) -> String {
        self.name.clone()
    }

    fn rounds(&self) -> u64 {
        256 * PRESSURES
    }

    fn library(&self, library: &Forces, rounds: u64) -> u64 {
        library.sum(black_box(&self.words), rounds)
    }

    fn difference(&self, library: &Forces) -> Option<String> {
        let (sum, exact) = (self.library(library, PRESSURES), self.exact(PRESSURES));
        let (name, whose, line) = (&self.name, library.whose(), self.case.line());
        let differ = || format!("{name}: {whose} has {sum}, exact {exact} for {line}");
        (sum != exact).then(differ)
    }
}

impl Versions for Timed {
    const EXACT_ROUNDS: u64 = PRESSURES;

    fn plain(&self, rounds: u64) -> u64 {
        let case = &self.case;
        let force = |round| {
            let (legs, pressure) = (case.tower.legs, self.pressure(round));
            let section = black_box(case.section());
            whole_force(legs, section, black_box(&case.wind), pressure, self.items)
        };
        (0..rounds).map(force).fold(0, u64::wrapping_add)
    }

    fn exact(&self, rounds: u64) -> u64 {
        let mut case = self.case.clone();
        let force = |round| {
            case.wind.pressures[0] = self.pressure(round);
            black_box(&case).exact_force().least_whole().0
        };
        (0..rounds).map(force).fold(0, u64::wrapping_add)
    }
}

/// What sections are timed together.
#[derive(Clone, Copy, Debug, PartialEq, Eq)]
pub enum Kind {
    /// Random cases with supercritical members at every pressure.
    Supercritical,
    /// Random cases without at any.
    NoSupercritical,
    /// One supercritical tube, so two values.
    OneTube,
    /// Eight of them, so nine values.
    EightTubes,
}

impl Kind {
    /// All of them.
    pub const ALL: [Kind; 4] = [
        Kind::Supercritical,
        Kind::NoSupercritical,
        Kind::OneTube,
        Kind::EightTubes,
    ];

    /// Its name in a table.
    pub fn name(self) -> &'static str {
        match self {
            Kind::Supercritical => "supercritical",
            Kind::NoSupercritical => "no supercritical",
            Kind::OneTube => "one tube",
            Kind::EightTubes => "eight tubes",
        }
    }

    fn cases(self) -> Vec<Case> {
        match self {
            Kind::Supercritical => random(true),
            Kind::NoSupercritical => random(false),
            Kind::OneTube => tubes::one_tube(),
            Kind::EightTubes => tubes::eight_tubes(),
        }
    }
}

/// So many sections of a kind. At most one item hangs on each, as the library is
/// given the items' sum and the exact version adds it up.
pub fn sections(kind: Kind, count: usize) -> Vec<Timed> {
    let cases = kind.cases().into_iter().enumerate().take(count);
    let timed = |(place, case)| Timed::new(format!("{} {place}", kind.name()), case);
    cases.map(timed).collect()
}

/// The random cases with supercritical members at every pressure, or without at
/// any.
fn random(supercritical: bool) -> Vec<Case> {
    let wanted = |case: &Case| {
        let highest = case.pressure();
        let Some(lowest) = highest.checked_sub(PRESSURES as u16 - 1) else {
            return false;
        };
        let at = if supercritical { lowest } else { highest };
        has_supercritical(case, at) == supercritical
    };
    let lighter = |mut case: Case| {
        case.tower.items.retain(|item| item.section == 0);
        case.tower.items.truncate(1);
        case
    };
    let cases = random_cases().into_iter().filter(wanted);
    cases.map(lighter).collect()
}

fn has_supercritical(case: &Case, pressure: u16) -> bool {
    let areas = areas(case.section(), case.wind.ice_thickness(), pressure);
    areas.supercritical.0 > 0
}
