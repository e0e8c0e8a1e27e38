//! The cases of single sections, read back from their lines.

use crate::common::{beside_tenths, erected, rows, set_wind};
use reference::areas::gross_face_area;
use reference::cases::{all, files, random_cases, Case};
use reference::rational::Rational;
use reference::tower::{Group, Item, Legs, Member, Section, Tower, Wind};
use reference::units::Length;
use std::cmp::Ordering;
use std::collections::{BTreeMap, BTreeSet};
use std::sync::OnceLock;

/// A case as its line says, and the numbers of its answer.
struct Read {
    case: Case,
    answer: [u64; 5],
}

impl Read {
    /// Which of A_f, A_c and A_p are not 0.
    fn classes(&self) -> [bool; 3] {
        [0, 1, 2].map(|place| self.answer[place] > 0)
    }

    fn solid(&self) -> u64 {
        self.answer[..3].iter().sum()
    }

    fn gross(&self) -> u64 {
        gross_face_area(self.case.section()).0
    }

    /// How the exact force compares with the printed one and some 10⁻⁸ N.
    fn compare(&self, less: u64, part: u64) -> Ordering {
        let whole = self.answer[4] - less;
        let fraction = Rational::fraction(whole * 100_000_000 + part, 100_000_000);
        self.case.exact_force().compare(&fraction)
    }
}

/// The cases of both files, line by line.
fn read() -> &'static [Read] {
    static READ: OnceLock<Vec<Read>> = OnceLock::new();
    READ.get_or_init(|| {
        let [stdin, stdout] = texts();
        let lines = stdin.lines().zip(stdout.lines()).take(all().len());
        let read = |(line, answer)| Read {
            case: parse(line),
            answer: numbers(answer).try_into().expect("five numbers"),
        };
        lines.map(read).collect()
    })
}

/// `stdin` and `stdout`.
pub fn texts() -> [String; 2] {
    let files = files();
    let names: Vec<&str> = files.iter().map(|file| file.name).collect();
    assert_eq!(names, ["stdin", "stdout"]);
    let texts = files.into_iter().map(|file| file.bytes);
    let texts: Vec<String> = texts
        .map(|bytes| String::from_utf8(bytes).unwrap())
        .collect();
    assert!(texts.iter().all(|text| text.ends_with('\n')));
    texts.try_into().unwrap()
}

/// Decimal numbers with one space between.
fn numbers(line: &str) -> Vec<u64> {
    line.split(' ')
        .map(|word| {
            let number: u64 = word.parse().expect("a number");
            assert_eq!(number.to_string(), word);
            number
        })
        .collect()
}

/// Reads a line to its end.
fn parse(line: &str) -> Case {
    let mut numbers = numbers(line).into_iter();
    let mut next = || u32::try_from(numbers.next().expect("one more")).unwrap();
    let legs = match next() {
        3 => Legs::Three,
        4 => Legs::Four,
        other => panic!("{other} legs"),
    };
    let wind = Wind {
        direction: next(),
        ice_class: next(),
        structure_factor: next(),
        pressures: vec![next() as u16],
    };
    let section = Section {
        width: Length(next()),
        height: Length(next()),
        allowance: None,
        groups: (0..next()).map(|_| parse_group(&mut next)).collect(),
    };
    let tower = Tower {
        legs,
        sections: vec![section],
        items: (0..next())
            .map(|place| parse_item(&mut next, place))
            .collect(),
    };
    assert_eq!(numbers.next(), None);
    Case { tower, wind }
}

fn parse_group(next: &mut impl FnMut() -> u32) -> Group {
    let kind = match next() {
        0 => Member::Flat,
        1 => Member::Round,
        other => panic!("kind {other}"),
    };
    Group {
        member: kind(Length(next())),
        length: Length(next()),
    }
}

fn parse_item(next: &mut impl FnMut() -> u32, place: u32) -> Item {
    Item {
        number: place as u16,
        section: next() as u8,
        width: Length(next()),
        length: Length(next()),
        bare: next() as u16,
        iced: next() as u16,
        position: next() as u16,
    }
}

#[test]
fn every_line_reads_back() {
    let cases = all();
    assert_eq!(cases.len(), read().len());
    for (case, read) in cases.iter().zip(read()) {
        assert_eq!(read.case.line(), case.line());
        assert_eq!(read.case.tower.sections, case.tower.sections);
    }
}

/// As the top section of equal ones, so that items may hang on the others.
#[test]
fn the_service_accepts_every_case_and_reports_its_answer() {
    for read in read() {
        let (case, [flat, subcritical, supercritical, _, force]) = (&read.case, read.answer);
        let (mut tower, mut wind) = (case.tower.clone(), case.wind.clone());
        let lowest = case.tower.items.iter().map(|item| item.section).max();
        let count = 1 + usize::from(lowest.unwrap_or(0));
        tower.sections = vec![case.section().clone(); count];
        wind.pressures = vec![case.pressure(); count];
        let mut service = erected(&tower);
        assert_eq!(set_wind(&mut service, &wind), Ok(()), "{}", case.line());
        let row = &rows(&service)[..4];
        assert_eq!(row, [flat, subcritical, supercritical, force]);
    }
}

#[test]
fn there_are_so_many_cases() {
    // README.md states this number
    assert_eq!(read().len(), 3_528);
    let random = random_cases();
    assert_eq!(random.len(), 680);
    let lines: BTreeSet<String> = random.iter().map(Case::line).collect();
    assert_eq!(lines.len(), 680);
}

#[test]
fn the_samples_come_first() {
    let forces = read().iter().map(|read| read.answer[4]);
    let samples = [
        7_033, 7_227, 7_807, 8_761, 6_100, 5_795, 5_490, 4_080, 1_982, 2_600, 7_609, 4_656, 2_816,
        2_816,
    ];
    assert_eq!(forces.take(14).collect::<Vec<u64>>(), samples);
    // 300 by 2 000, coefficient 1 200, K 800
    assert_eq!(read()[10].answer, [2_400_000, 0, 0, 576_000_000_000, 7_609]);
    assert_eq!(read()[13].answer[..3], [0, 0, 1_500_000]);
}

/// Flats, subcritical rounds, supercritical rounds, and all three.
const CLASSES: [[bool; 3]; 4] = [
    [true, false, false],
    [false, true, false],
    [false, false, true],
    [true, true, true],
];

#[test]
fn every_ratio_has_every_class_and_direction_on_both_shapes() {
    let mut found: BTreeMap<_, BTreeSet<(u32, [bool; 3])>> = BTreeMap::new();
    for read in read() {
        for ratio in beside_tenths(read.solid(), read.gross()) {
            let key = (read.case.tower.legs.count(), ratio);
            let kind = (read.case.wind.direction, read.classes());
            found.entry(key).or_default().insert(kind);
        }
    }
    let ratios = [2, 5, 8, 10].map(|tenths| [(tenths, -1), (tenths, 0), (tenths, 1)]);
    for ratio in &ratios.concat()[..11] {
        for (legs, step, turn) in [(3, 2, 8), (4, 1, 6)] {
            let kinds = &found[&(legs, *ratio)];
            let directions: BTreeSet<u32> = kinds.iter().map(|(k, _)| *k).collect();
            assert_eq!(directions, (0..24).step_by(step).collect());
            for classes in CLASSES {
                let these = kinds.iter().filter(|(_, found)| *found == classes);
                let turned: BTreeSet<u32> = these.map(|(k, _)| k % turn).collect();
                assert_eq!(turned, (0..turn).step_by(step).collect(), "{ratio:?}");
            }
        }
    }
}

#[test]
fn the_smallest_and_the_largest_are_there() {
    let mut found: BTreeMap<_, BTreeMap<u32, usize>> = BTreeMap::new();
    for read in read() {
        let (section, wind) = (read.case.section(), &read.case.wind);
        let size = (section.width.0, section.height.0);
        let load = (read.case.pressure(), wind.structure_factor);
        let held = read.case.tower.items.len();
        let legs = read.case.tower.legs.count();
        let key = (size, load, legs, wind.ice_class, read.solid(), held);
        *found
            .entry(key)
            .or_default()
            .entry(wind.direction)
            .or_default() += 1;
    }
    let (small, large) = ((100, 100), (15_000, 10_000));
    for (legs, turned) in [(3, 4), (4, 3)] {
        // a flat and a round, along the normal and with s = 1
        let both = BTreeMap::from([(0, 2), (turned, 2)]);
        for (ice, least) in [(0, 1), (1, 21), (5, 101)] {
            for (load, held) in [((1, 500), 0), ((5_000, 2_000), 1)] {
                assert_eq!(found[&(small, load, legs, ice, least, held)], both);
            }
        }
        for (ice, least) in [(0, 1), (5, 101)] {
            for solid in [150_000_000, 149_999_999, least] {
                assert_eq!(found[&(large, (5_000, 2_000), legs, ice, solid, 0)], both);
                let most = &found[&(large, (5_000, 2_000), legs, ice, solid, 64)];
                assert!(most[&0] == 2 && most[&turned] >= 2, "{most:?}");
            }
        }
    }
}

/// 150 m² of iced rounds times c_c 2 times Kθ 1.16, and 64 times 3.1 m by 10 m
/// times 3, under 10 000 N/m²; no tower has more.
#[test]
fn the_largest_force_is_there() {
    for (held, force) in [(0, 3_480_000), (64, 63_000_000)] {
        let most = |read: &&Read| read.case.tower.items.len() <= held;
        let forces = read().iter().filter(most).map(|read| read.answer[4]);
        assert_eq!(forces.max(), Some(force));
        let sum = held as u64 * 93_000_000_000_000;
        let wanted = |read: &Read| {
            let wind = &read.case.wind;
            read.answer == [0, 150_000_000, 0, sum, force]
                && (wind.direction, wind.ice_class) == (3, 5)
                && read.case.tower.legs == Legs::Four
        };
        assert!(read().iter().any(wanted), "{held} items");
    }
}

#[test]
fn the_ends_of_the_loads_are_there() {
    let loads: BTreeSet<(u16, u32)> = read()
        .iter()
        .map(|read| (read.case.pressure(), read.case.wind.structure_factor))
        .collect();
    for pressure in [0, 1, 4_999, 5_000] {
        for factor in [500, 501, 1_999, 2_000] {
            assert!(loads.contains(&(pressure, factor)), "{pressure} {factor}");
        }
    }
    let calm = read().iter().filter(|read| read.case.pressure() == 0);
    assert!(calm.clone().count() >= 20);
    for read in calm {
        assert_eq!(read.answer[4], 0);
    }
}

#[test]
fn items_count_by_their_ice_and_section() {
    for class in 0..=5 {
        let (mut telling, mut elsewhere, mut alone) = (0, 0, 0);
        let under = |read: &&Read| read.case.wind.ice_class == class;
        for read in read().iter().filter(under) {
            let items = read.case.tower.items.iter();
            let (here, there): (Vec<&Item>, Vec<&Item>) = items.partition(|item| item.section == 0);
            telling += usize::from(here.iter().any(|item| item.bare != item.iced));
            elsewhere += usize::from(!there.is_empty());
            if here.is_empty() {
                assert_eq!(read.answer[3], 0);
                alone += usize::from(!there.is_empty());
            }
        }
        let counts = (telling, elsewhere, alone);
        assert!(
            telling >= 30 && elsewhere >= 20 && alone >= 10,
            "{class}: {counts:?}"
        );
    }
}

#[test]
fn the_flow_limit_is_met_and_passed() {
    let mut found: BTreeMap<(u64, i64), usize> = BTreeMap::new();
    for read in read().iter().filter(|read| read.case.wind.ice_class == 0) {
        let pressure = u64::from(read.case.pressure());
        for group in &read.case.section().groups {
            let Member::Round(Length(diameter)) = group.member else {
                continue;
            };
            let square = 2 * u64::from(diameter).pow(2);
            let beside = pressure as i64 - (45_000_000 / square) as i64;
            if 45_000_000 % square == 0 && beside.abs() <= 1 {
                *found.entry((diameter.into(), beside)).or_default() += 1;
            }
        }
    }
    for diameter in [75, 100, 150, 250, 300, 500] {
        for beside in [-1, 0, 1] {
            assert!(found[&(diameter, beside)] >= 2, "{diameter} {beside}");
        }
    }
}

#[test]
fn whole_forces_and_forces_beside_one_are_there() {
    let (mut whole, mut rooted, mut below, mut above) = (0, 0, 0, 0);
    for read in read().iter().filter(|read| read.answer[4] > 0) {
        let exactly = read.compare(0, 0) == Ordering::Equal;
        let root = read.answer[2] > 0 && read.solid() < read.gross();
        whole += usize::from(exactly);
        rooted += usize::from(exactly && root);
        below += usize::from(!exactly && root && read.compare(1, 99_999_999) == Ordering::Greater);
        above += usize::from(root && read.compare(1, 1) == Ordering::Less);
    }
    assert!(whole >= 60, "{whole} whole forces");
    assert!(rooted >= 2, "{rooted} whole forces with a root");
    assert!(below >= 40, "{below} just below a whole force");
    assert!(above >= 40, "{above} just above a whole force");
}

/// With 60 of the largest items: 10⁻⁸ N below, exactly whole, 10⁻⁸ N above.
#[test]
fn the_largest_force_with_room_for_four_items_is_beside_a_whole_one() {
    let near = 59_280_000..59_290_000;
    let these = read().iter().filter(|read| near.contains(&read.answer[4]));
    let full = these.filter(|read| read.solid() == read.gross());
    let beside: Vec<_> = full
        .map(|read| {
            let parts = [(1, 99_999_999), (0, 0), (1, 1)];
            let place = parts.map(|(less, part)| read.compare(less, part));
            (read.answer[4], place.map(|order| order == Ordering::Equal))
        })
        .collect();
    let whole = beside[0].0;
    assert_eq!(
        beside,
        [
            (whole, [true, false, false]),
            (whole, [false, true, false]),
            (whole + 1, [false, false, true]),
        ]
    );
}
