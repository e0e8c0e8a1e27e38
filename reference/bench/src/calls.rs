//! The calls on a tower under a wind, in the library and in Rust.

use crate::library::{Calls, Library, Windy};
use crate::proved::{InRust, Proved, Versions};
use crate::towers::{self, dish, Rounds, SECTIONS};
use reference::file::write;
use reference::plain;
use reference::report::{rows, Row, ROW};
use reference::service::Service;
use reference::tower::{Tower, Wind, MOST_ITEMS};
use std::hint::black_box;

/// A tower under a wind, whose calls are timed.
pub struct TimedTower {
    /// What it is.
    pub name: &'static str,
    file: Vec<u8>,
    tower: Tower,
    wind: Wind,
    service: Service,
}

impl TimedTower {
    /// The tower is erected and the wind is set.
    pub fn new(name: &'static str, tower: Tower, wind: Wind) -> TimedTower {
        let file = write(&tower);
        let mut service = Service::fresh();
        service.erect(&file).expect("a tower that is accepted");
        service
            .wind(
                wind.direction,
                wind.ice_class,
                wind.structure_factor,
                &wind.pressures,
            )
            .expect("a wind that is accepted");
        TimedTower {
            name,
            file,
            tower,
            wind,
            service,
        }
    }

    /// The same under the bare wind of the timed towers.
    fn bare(name: &'static str, tower: Tower) -> TimedTower {
        let wind = towers::wind(&tower);
        TimedTower::new(name, tower, wind)
    }

    /// The tower file.
    pub fn file(&self) -> &[u8] {
        &self.file
    }

    /// The wind.
    pub fn wind(&self) -> &Wind {
        &self.wind
    }

    /// How many sections it has.
    pub fn sections(&self) -> usize {
        self.tower.sections.len()
    }

    /// How many items hang on it.
    pub fn items(&self) -> usize {
        self.tower.items.len()
    }

    /// The Rust version of the service, with it under the wind.
    pub fn service(&self) -> &Service {
        &self.service
    }

    /// What the library is given.
    pub fn windy(&self) -> Windy<'_> {
        Windy {
            file: black_box(&self.file),
            wind: &self.wind,
        }
    }

    /// Zeros for as many numbers as a report has.
    pub fn lent(&self) -> Vec<u64> {
        vec![0; ROW * self.sections()]
    }

    /// Says how a report into lent numbers, which answers how many are accepted,
    /// differs from the exact one, if it does.
    pub fn report_difference(&self, report: impl FnOnce(&mut [u64]) -> u64) -> Option<String> {
        let mut lent = self.lent();
        if report(&mut lent) != 1 {
            return Some("turns the report down".to_string());
        }
        let exact = self.exact_numbers();
        let place = lent.iter().zip(&exact).position(|(l, r)| l != r)?;
        Some(format!("reports other numbers from place {place} on"))
    }

    /// The exact report.
    pub fn exact_numbers(&self) -> Vec<u64> {
        let mut lent = self.lent();
        self.service.report(&mut lent).expect("a report");
        lent
    }

    /// Says where the plain report is not near the exact one, if it is not.
    pub fn plain_difference(&self) -> Option<String> {
        let (name, row) = (self.name, self.far_off()?);
        Some(format!(
            "{name}: the plain row {row} is not near the exact one"
        ))
    }

    /// The first row of the plain version with other areas, or with a force that
    /// is more than 1 N off, or a shear or a moment that is further off than that
    /// allows.
    fn far_off(&self) -> Option<usize> {
        let exact = rows(&self.tower, &self.wind);
        let plain = plain::rows(&self.tower, &self.wind);
        let (mut newtons, mut arms) = (0.0, 0.0);
        let mut is_near = |(place, (plain, exact)): (usize, (&plain::Row, &Row))| {
            let height = f64::from(self.tower.sections[place].height.0);
            arms += newtons * height + height / 2.0;
            newtons += 1.0;
            plain.areas == exact.areas
                && (plain.force - exact.force.0 as f64).abs() <= 1.0
                && (plain.shear - exact.shear.0 as f64).abs() <= newtons
                && (plain.moment - exact.moment.0 as f64).abs() <= arms
        };
        plain
            .iter()
            .zip(&exact)
            .enumerate()
            .position(|row| !is_near(row))
    }
}

/// Those whose reports are timed, the three largest first.
pub fn timed_towers() -> Vec<TimedTower> {
    let [thick, one, thin] = [Rounds::Thick, Rounds::One, Rounds::Thin].map(towers::largest);
    let ice = Wind {
        ice_class: 1,
        ..towers::wind(&thin)
    };
    vec![
        TimedTower::bare("largest, four tubes a section", thick),
        TimedTower::bare("largest, one tube a section", one),
        TimedTower::bare("largest, no supercritical", thin.clone()),
        TimedTower::new("largest, iced", thin, ice),
        mast(),
        one_tube_mast(),
    ]
}

/// The first of these.
pub fn largest() -> TimedTower {
    timed_towers().remove(0)
}

/// The mast with one tube a section.
fn one_tube_mast() -> TimedTower {
    let tower = towers::tower(Rounds::One, 12, 8);
    TimedTower::bare("12 sections, 8 items, one tube a section", tower)
}

/// A mast of a dozen sections with eight items.
pub fn mast() -> TimedTower {
    TimedTower::bare("12 sections, 8 items", towers::tower(Rounds::Thick, 12, 8))
}

/// The largest tower, but one item less, so that one more can be hung.
pub fn with_room() -> TimedTower {
    let tower = towers::tower(Rounds::Thick, SECTIONS, MOST_ITEMS - 1);
    TimedTower::bare("32 sections, 63 items", tower)
}

/// Reports.
impl Proved for TimedTower {
    type Library = Calls;
    const WHAT: &'static str = "ns per report";

    fn name(&self) -> String {
        self.name.to_string()
    }

    fn rounds(&self) -> u64 {
        400
    }

    fn library(&self, library: &Calls, rounds: u64) -> u64 {
        let mut lent = self.lent();
        let accepted = library.report(&self.windy(), rounds, &mut lent);
        assert_eq!(accepted, rounds, "{}", self.name);
        black_box(lent);
        accepted
    }

    fn difference(&self, library: &Calls) -> Option<String> {
        let differs = self.report_difference(|lent| library.report(&self.windy(), 1, lent))?;
        Some(format!("{}: {} {differs}", self.name, library.whose()))
    }
}

impl Versions for TimedTower {
    const EXACT_ROUNDS: u64 = 2;

    fn plain(&self, rounds: u64) -> u64 {
        for _ in 0..rounds {
            black_box(plain::rows(black_box(&self.tower), black_box(&self.wind)));
        }
        rounds
    }

    fn exact(&self, rounds: u64) -> u64 {
        let mut lent = self.lent();
        let report = |_: &u64| {
            black_box(&self.service)
                .report(black_box(&mut lent))
                .is_ok()
        };
        (0..rounds).filter(report).count() as u64
    }
}

/// A call that is timed in two versions.
#[derive(Clone, Copy, Debug, PartialEq, Eq)]
pub enum Call {
    /// A dish hung, then taken down: two calls a round.
    Hang,
    /// The item that was hung first taken down, then hung again: two calls a round.
    FirstDown,
    /// The file erected.
    Erect,
}

/// A call on a tower.
pub struct TimedCall {
    /// The call.
    pub call: Call,
    /// The tower.
    pub on: TimedTower,
}

impl TimedCall {
    /// Calls in a round.
    pub fn in_round(&self) -> u64 {
        match self.call {
            Call::Hang | Call::FirstDown => 2,
            Call::Erect => 1,
        }
    }
}

/// The versions answer how many calls are accepted.
impl Proved for TimedCall {
    type Library = Calls;
    const WHAT: &'static str = "ns per call";

    fn name(&self) -> String {
        match self.call {
            Call::Hang => format!("hang, take down: {}", self.on.name),
            Call::FirstDown => format!("first of {} items down, hung again", self.on.items()),
            Call::Erect => format!("erect: {} bytes", self.on.file.len()),
        }
    }

    fn rounds(&self) -> u64 {
        match self.call {
            Call::Hang | Call::FirstDown => 5_000,
            Call::Erect => 1_000,
        }
    }

    fn is_in(&self, library: &Calls) -> bool {
        self.call != Call::FirstDown || library.first_down(&self.on.windy(), 0).is_some()
    }

    fn library(&self, library: &Calls, rounds: u64) -> u64 {
        let windy = self.on.windy();
        match self.call {
            Call::Hang => library.hang(&windy, rounds),
            Call::FirstDown => library.first_down(&windy, rounds).expect("it is in it"),
            Call::Erect => library.erect(&windy, rounds),
        }
    }

    fn difference(&self, library: &Calls) -> Option<String> {
        let all = 3 * self.in_round();
        let (accepted, rust) = (self.library(library, 3), self.rust(3));
        let (name, whose) = (self.name(), library.whose());
        let differ = || format!("{name}: of {all} calls {whose} accepts {accepted}, Rust {rust}");
        ((accepted, rust) != (all, all)).then(differ)
    }

    fn number(&self, nanoseconds: f64) -> f64 {
        nanoseconds / self.in_round() as f64
    }
}

impl InRust for TimedCall {
    fn rust(&self, rounds: u64) -> u64 {
        let mut service = self.on.service.clone();
        let accepted = |round: u64| match self.call {
            Call::Hang => {
                let dish = black_box(dish(round));
                let hung = service.hang(dish).is_ok();
                let taken = black_box(&mut service).take_down(dish.number).is_ok();
                u64::from(hung) + u64::from(taken)
            }
            Call::FirstDown => {
                let tower = black_box(&service).tower().expect("a tower");
                let first = tower.items.first().copied().unwrap_or_else(|| dish(0));
                let taken = service.take_down(first.number).is_ok();
                let hung = black_box(&mut service).hang(first).is_ok();
                u64::from(taken) + u64::from(hung)
            }
            Call::Erect => u64::from(service.erect(black_box(&self.on.file)).is_ok()),
        };
        (0..rounds).map(accepted).sum()
    }
}

/// Those that are timed in two versions, the three on largest towers first.
pub fn timed_calls() -> Vec<TimedCall> {
    let calls = [
        (Call::Hang, with_room()),
        (Call::FirstDown, largest()),
        (Call::Erect, largest()),
        (Call::Hang, mast()),
        (Call::FirstDown, mast()),
        (Call::Erect, mast()),
    ];
    calls.map(|(call, on)| TimedCall { call, on }).into()
}
