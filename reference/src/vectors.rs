//! Cases on which the definitions of document 01 and this version have to
//! agree: towers under a wind, tower files, lists of calls, and host calls.

pub(crate) mod damage;
mod hosts;
mod lists;
mod table;

use crate::cases::lesser;
use crate::draw::{self, Random};
use crate::file;
use crate::force::{formula, lesser_pressures};
use crate::refusal::Refusal;
use crate::report::ROW;
use crate::service::Service;
use crate::tower::{Item, Legs, Tower, Wind};
use crate::units::Force;
use std::collections::BTreeMap;

/// What the program prints for `--help`.
pub const USAGE: &str = "\
usage: vectors
       vectors --help

Prints towers, tower files, lists of calls and host calls with this version's
answers, as a table for the definitions. How often each refusal is reached goes to
standard error; status 1 if one is never reached.

  --help  print this
";

/// A tower under a wind, and its rows.
#[derive(Clone, Debug, PartialEq, Eq)]
pub struct TowerCase {
    /// The tower.
    pub tower: Tower,
    /// An acceptable wind.
    pub wind: Wind,
    /// Six numbers per section.
    pub rows: Vec<u64>,
    /// For each section 1 if its shear is above its allowance, else 0.
    pub over: Vec<u8>,
    /// What check answers; the number of sections if none is over.
    pub topmost: usize,
}

impl TowerCase {
    fn has_lesser_wind(&self, section: usize) -> bool {
        let (ice, pressure) = (self.wind.ice_thickness(), self.wind.pressures[section]);
        !lesser_pressures(&self.tower.sections[section], ice, pressure).is_empty()
    }

    /// The formula's value at full pressure, rounded up.
    fn full_force(&self, section: usize) -> Force {
        let pressure = self.wind.pressures[section];
        formula(&self.tower, &self.wind, section, pressure).least_whole()
    }
}

/// A file, and the number of its refusal.
#[derive(Clone, Debug, PartialEq, Eq)]
pub struct FileCase {
    /// Whole, cut or damaged.
    pub bytes: Vec<u8>,
    /// 0 if it is accepted.
    pub refusal: u32,
}

/// One of the seven calls with its arguments.
#[derive(Clone, Debug, PartialEq, Eq)]
pub enum Call {
    /// A file.
    Erect(Vec<u8>),
    /// An item.
    Hang(Item),
    /// An item's number.
    TakeDown(u16),
    /// A wind.
    Wind(Wind),
    /// The length of the lent slice.
    Report(usize),
    /// No argument.
    Check,
    /// The length of the lent slice.
    Write(usize),
}

/// Calls on a fresh service.
#[derive(Clone, Debug, PartialEq, Eq)]
pub struct ListCase {
    /// The calls in order.
    pub calls: Vec<Call>,
    /// For each call the number of its refusal; 0 if it is accepted.
    pub refusals: Vec<u32>,
    /// What write gives at the end, empty without a tower.
    pub file: Vec<u8>,
}

/// A call of a host program, and the number that it answers.
#[derive(Clone, Debug, PartialEq, Eq)]
pub struct HostCase {
    /// Whole or damaged.
    pub file: Vec<u8>,
    /// k.
    pub direction: u32,
    /// Of any number.
    pub ice_class: u32,
    /// In thousandths.
    pub factor: u32,
    /// Two bytes each, if they are whole.
    pub pressures: Vec<u8>,
    /// Bytes that are lent for the rows.
    pub room: usize,
    /// 0 if it is accepted.
    pub refusal: u32,
}

/// All cases.
#[derive(Clone, Debug, PartialEq, Eq)]
pub struct Vectors {
    /// Towers under a wind.
    pub towers: Vec<TowerCase>,
    /// Tower files.
    pub files: Vec<FileCase>,
    /// Lists of calls.
    pub lists: Vec<ListCase>,
    /// Calls of a host program.
    pub hosts: Vec<HostCase>,
}

/// How often each refusal is reached.
pub type Counts = BTreeMap<u32, usize>;

impl Vectors {
    /// The same each time.
    pub fn all() -> Vectors {
        Vectors {
            towers: tower_cases(),
            files: file_cases(),
            lists: lists::list_cases(),
            hosts: hosts::host_cases(),
        }
    }

    /// The table for the definitions.
    pub fn table(&self) -> String {
        table::table(self)
    }

    /// How many of the towers' forces are those of a lesser wind, and how many are
    /// not though there is one.
    pub fn lesser_winds(&self) -> (usize, usize) {
        let (mut governed, mut not_governed) = (0, 0);
        for case in &self.towers {
            for section in 0..case.tower.sections.len() {
                let (lesser, full) = (case.has_lesser_wind(section), case.full_force(section));
                let above = case.rows[ROW * section + 3] > full.0;
                governed += usize::from(above);
                not_governed += usize::from(lesser && !above);
            }
        }
        (governed, not_governed)
    }

    /// The refusals of the files.
    pub fn file_refusals(&self) -> Counts {
        count(self.files.iter().map(|case| case.refusal))
    }

    /// The refusals of the calls in the lists, but for erect.
    pub fn call_refusals(&self) -> Counts {
        let calls = self.lists.iter().flat_map(|case| &case.calls);
        let refusals = self.lists.iter().flat_map(|case| &case.refusals);
        let others = calls
            .zip(refusals)
            .filter(|(call, _)| !matches!(call, Call::Erect(_)));
        count(others.map(|(_, &refusal)| refusal))
    }

    /// The refusals of the host's calls.
    pub fn host_refusals(&self) -> Counts {
        count(self.hosts.iter().map(|case| case.refusal))
    }

    /// Says which refusals no file, no call but erect, and no host's call reaches.
    pub fn missing(&self) -> Vec<String> {
        let (files, calls) = (self.file_refusals(), self.call_refusals());
        let hosts = self.host_refusals();
        let no_file = (2..=13).filter(|number| !files.contains_key(number));
        let of_files_alone = |number: &u32| (2..=8).contains(number) || *number == 13;
        let numbers = Refusal::ALL.iter().map(|refusal| refusal.number());
        let of_calls = numbers.filter(|number| !of_files_alone(number));
        let no_call = of_calls.filter(|number| !calls.contains_key(number));
        let of_hosts = [0, 2].into_iter().chain(15..=20).chain([22]);
        let no_host = of_hosts.filter(|number| !hosts.contains_key(number));
        no_file
            .map(|number| format!("no file has refusal {number}"))
            .chain(no_call.map(|number| format!("no call has refusal {number}")))
            .chain(no_host.map(|number| format!("no host's call has refusal {number}")))
            .collect()
    }
}

fn count(refusals: impl Iterator<Item = u32>) -> Counts {
    let mut counts = Counts::new();
    for refusal in refusals {
        *counts.entry(refusal).or_default() += 1;
    }
    counts
}

/// The number of the refusal, or 0.
pub(crate) fn number<T>(answer: Result<T, Refusal>) -> u32 {
    answer.map_or_else(Refusal::number, |_| 0)
}

fn tower_cases() -> Vec<TowerCase> {
    let mut random = Random(0x5eed_0101);
    let mut cases = Vec::new();
    for iced in [false, true] {
        for legs in [Legs::Three, Legs::Four] {
            for (tenths, beside) in draw::EXACT_SOLIDITY {
                cases.push(exact_case(&mut random, iced, legs, tenths, beside));
            }
        }
    }
    cases.extend((0..132).map(|place| tower_case(&mut random, place)));
    cases.extend(lesser_cases());
    cases
}

/// Sections with lesser winds, each a tower of its own: among them ones with two
/// to nine values of which any may govern, and items.
fn lesser_cases() -> impl Iterator<Item = TowerCase> {
    let cases = [
        lesser::emptiest(),
        lesser::two_rounds(),
        lesser::eight_rounds(),
        lesser::middle(),
        lesser::same_diameter(),
        lesser::same_pressure(),
        lesser::hung(),
        lesser::relieved(),
    ];
    cases.into_iter().flatten().map(|mut case| {
        case.tower.items.retain(|item| item.section == 0);
        reported(case.tower, case.wind)
    })
}

/// One section with this solidity ratio exactly, and a wind across a corner.
fn exact_case(random: &mut Random, iced: bool, legs: Legs, tenths: u32, beside: i32) -> TowerCase {
    let ice_class = if iced { random.within(1, 5) } else { 0 };
    let tower = Tower {
        legs,
        sections: vec![draw::exact_section(random, ice_class, tenths, beside)],
        items: Vec::new(),
    };
    let direction = match legs {
        Legs::Three => random.pick(&[2, 4, 6, 10, 12, 14]),
        Legs::Four => random.pick(&[1, 2, 3, 4, 5, 9, 15, 21]),
    };
    let wind = draw::wind(random, &tower, direction, ice_class);
    reported(tower, wind)
}

/// One to three sections and some items; place by place all directions.
fn tower_case(random: &mut Random, place: u32) -> TowerCase {
    let (legs, direction) = if place % 2 == 1 {
        (Legs::Three, place / 2 % 12 * 2)
    } else {
        (Legs::Four, place / 2 % 24)
    };
    let ice_class = draw::ice_class(random);
    let mut sections = Vec::new();
    for _ in 0..random.within(1, 3) {
        sections.push(if random.chance(20) {
            let tenths = random.within(1, 10);
            draw::exact_section(random, ice_class, tenths, 0)
        } else {
            draw::section(random, ice_class, 8)
        });
    }
    let held = random.within(0, 5);
    let tower = Tower {
        legs,
        items: draw::items(random, held, sections.len()),
        sections,
    };
    let wind = draw::wind(random, &tower, direction, ice_class);
    reported(tower, wind)
}

/// With the rows that the service reports, and allowances at the shears and
/// beside them, half of them below.
fn reported(mut tower: Tower, wind: Wind) -> TowerCase {
    let mut rows = vec![0; ROW * tower.sections.len()];
    assert_eq!(under(&tower, &wind).report(&mut rows), Ok(()));
    for (place, section) in tower.sections.iter_mut().enumerate() {
        let shear = rows[ROW * place + 4];
        section.allowance = match shear % 6 {
            0 => None,
            1 => Some(Force(shear)),
            2 => Some(Force(shear + 1)),
            _ => Some(Force(shear - 1)),
        };
    }
    let service = under(&tower, &wind);
    let over = (0..tower.sections.len() as u8)
        .map(|section| u8::from(service.is_over(section) == Ok(true)))
        .collect();
    let checked = service.check().expect("a tower under a wind");
    TowerCase {
        topmost: checked.map_or(tower.sections.len(), usize::from),
        tower,
        wind,
        rows,
        over,
    }
}

/// A service with this tower under this wind.
fn under(tower: &Tower, wind: &Wind) -> Service {
    let mut service = Service::fresh();
    let erected = service.erect(&file::write(tower));
    assert_eq!(erected, Ok(()), "{tower:?}");
    assert_eq!(set_wind(&mut service, wind), Ok(()), "{tower:?} {wind:?}");
    service
}

/// Makes the call with the numbers of this wind.
pub(crate) fn set_wind(service: &mut Service, wind: &Wind) -> Result<(), Refusal> {
    service.wind(
        wind.direction,
        wind.ice_class,
        wind.structure_factor,
        &wind.pressures,
    )
}

/// Every beginning of one file, then files with any damage.
fn file_cases() -> Vec<FileCase> {
    let mut random = Random(0x5eed_0102);
    let whole = file::write(&Tower {
        legs: Legs::Four,
        sections: vec![draw::section(&mut random, 0, 2)],
        items: draw::items(&mut random, 2, 1),
    });
    let mut files: Vec<Vec<u8>> = (0..=whole.len()).map(|end| whole[..end].to_vec()).collect();
    files.extend((0..420).map(|_| damage::any_file(&mut random)));
    let case = |bytes: Vec<u8>| FileCase {
        refusal: number(file::read(&bytes)),
        bytes,
    };
    files.into_iter().map(case).collect()
}
