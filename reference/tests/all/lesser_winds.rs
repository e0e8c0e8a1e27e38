//! The exact force is the greatest value of the formula in any lesser wind.

use crate::common::{decimal, flat, item, round, rows, sample_wind, section, tower, under_wind};
use reference::draw::{self, Random};
use reference::force::{exact_force, formula, lesser_pressures, ExactForce, Rooted};
use reference::rational::Rational;
use reference::rules::judge_pressures;
use reference::tower::{Group, Item, Legs, Tower, Wind};
use reference::units::{Force, Length};
use std::cmp::Ordering;

/// The starred sample with a root.
fn triangle() -> Tower {
    tower(Legs::Three, &[section(2_000, 5_000, &[round(300, 6_100)])])
}

/// The samples' wind with this pressure on every section.
fn blowing(tower: &Tower, pressure: u16) -> Wind {
    Wind {
        pressures: vec![pressure; tower.sections.len()],
        ..sample_wind(tower, 0, 0)
    }
}

/// φ is 0.183, so c_c is 1.506151975 and c_p 1.083, on 1.83 m². The round is
/// supercritical above 250, and full pressure governs again from 348 on.
#[test]
fn the_triangle_by_hand() {
    let tower = triangle();
    for (pressure, value, exact, reported) in [
        (0, "0", "0", 0),
        (1, "2.75625811425", "2.75625811425", 3),
        (249, "686.30827044825", "686.30827044825", 687),
        (250, "689.0645285625", "689.0645285625", 690),
        (251, "497.45439", "689.0645285625", 690),
        (347, "687.71583", "689.0645285625", 690),
        (348, "689.69772", "689.69772", 690),
        (349, "691.67961", "691.67961", 692),
        (1_000, "1981.89", "1981.89", 1_982),
    ] {
        let wind = blowing(&tower, pressure);
        let (value, exact) = (decimal(value), decimal(exact));
        let at_full = formula(&tower, &wind, 0, pressure);
        assert_eq!(at_full.compare(&value), Ordering::Equal, "{pressure}");
        let greatest = exact_force(&tower, &wind, 0);
        assert_eq!(greatest.compare(&exact), Ordering::Equal, "{pressure}");
        assert_eq!(rows(&under_wind(&tower, &wind))[3], reported, "{pressure}");
    }
    let alone = formula(&tower, &blowing(&tower, 251), 0, 251);
    assert_eq!(alone.least_whole(), Force(498));
}

/// Rounds of 300 and of 150 mm by 1.2 m² each on a square with φ = 0.2: c_c is
/// 1.7. At 260 the thinner ones are subcritical, and 1.7 times 2.4 times 250 is
/// the most. The item has 0.576 m².
#[test]
fn every_group_is_classed_anew_and_items_are_under_the_lesser_wind() {
    let groups = [round(150, 8_000), round(300, 4_000)];
    let mut tower = tower(Legs::Four, &[section(2_000, 6_000, &groups)]);
    assert_eq!(
        lesser_pressures(&tower.sections[0], Length(0), 1_100),
        [250, 1_000]
    );
    for (pressure, reported, hung) in [
        (250, 1_020, 1_164),
        (260, 1_020, 1_164),
        // 1.2 (1.7 + 1.9 - sqrt(0.348)) times 1 000, and 576 more
        (1_001, 3_613, 4_189),
        (1_100, 3_613, 4_189),
        // 2.4 (1.9 - sqrt(0.348)) times 1 200, and 691.2 more
        (1_200, 3_774, 4_465),
    ] {
        let wind = blowing(&tower, pressure);
        tower.items.clear();
        assert_eq!(rows(&under_wind(&tower, &wind))[3], reported, "{pressure}");
        tower.items.push(item(1));
        assert_eq!(rows(&under_wind(&tower, &wind))[3], hung, "{pressure}");
    }
}

/// Each section has lesser winds of its own, below its own pressure.
#[test]
fn sections_have_lesser_winds_of_their_own() {
    let part = triangle().sections;
    let tower = tower(Legs::Three, &[part.clone(), part.clone(), part].concat());
    let mut wind = blowing(&tower, 251);
    wind.pressures = vec![1_000, 251, 100];
    let rows = rows(&under_wind(&tower, &wind));
    let forces: Vec<u64> = rows.chunks(6).map(|row| row[3]).collect();
    assert_eq!(forces, [1_982, 690, 276]);
    let areas: Vec<&[u64]> = rows.chunks(6).map(|row| &row[1..3]).collect();
    assert_eq!(areas, [[0, 1_830_000], [0, 1_830_000], [1_830_000, 0]]);
}

#[test]
fn the_greatest_of_several_is_compared() {
    // 6, 10 - sqrt(2) = 8.585 786 437 62..., and 8.5
    let zero = Rational::whole(0);
    let values = [
        Rooted::new(decimal("10"), &decimal("2"), &decimal("4")),
        Rooted::new(decimal("10"), &decimal("1"), &decimal("2")),
        Rooted::new(decimal("8.5"), &zero, &zero),
    ];
    for turned in 0..3 {
        let mut values = values.to_vec();
        values.rotate_left(turned);
        let greatest = ExactForce::greatest(values.clone());
        assert_eq!(
            greatest.compare(&decimal("8.58578643762")),
            Ordering::Greater
        );
        assert_eq!(greatest.compare(&decimal("8.58578643763")), Ordering::Less);
        assert_eq!(greatest.least_whole(), Force(9));
        assert!(greatest.is_at_most(Force(9)) && !greatest.is_at_most(Force(8)));
        values.retain(|value| value.compare(&decimal("8.5")) != Ordering::Greater);
        let rest = ExactForce::greatest(values);
        assert_eq!(rest.compare(&decimal("8.5")), Ordering::Equal);
        assert_eq!(rest.compare(&decimal("6")), Ordering::Greater);
    }
}

/// One to eight groups of which most are rounds, that are supercritical from 23
/// to 391 N/m² on, and items that do not outweigh them.
fn drawn(random: &mut Random) -> (Tower, Wind) {
    let legs = random.pick(&[Legs::Three, Legs::Four]);
    let (width, height) = (random.within(1_000, 4_000), 2 * random.within(500, 2_000));
    let count = random.within(1, 8);
    let solid = width * height / 1_000 * random.within(20, 900);
    let group = |random: &mut Random| {
        let kind = if random.chance(20) { flat } else { round };
        let size = random.within(240, 1_000);
        let part = solid / count * random.within(1, 10) / 10;
        kind(size, (part / size).max(1))
    };
    let groups: Vec<Group> = (0..count).map(|_| group(random)).collect();
    let mut tower = tower(legs, &[section(width, height, &groups)]);
    for number in 0..random.within(0, 2) as u16 {
        tower.items.push(Item {
            width: Length(random.within(1, 500)),
            iced: 700,
            ..item(number)
        });
    }
    let wind = Wind {
        direction: draw::direction(random, legs),
        ice_class: random.pick(&[0, 0, 0, 0, 0, 0, 0, 1]),
        structure_factor: random.within(500, 2_000),
        pressures: vec![pressure(random, &groups)],
    };
    (tower, wind)
}

/// Mostly a little above the one at which a group of this size would turn
/// supercritical; at most 400.
fn pressure(random: &mut Random, groups: &[Group]) -> u16 {
    let limit = draw::flow_limit(random.pick(groups).member.bare_width().0);
    let (near, any) = (
        limit + random.within(1, limit / 5 + 1),
        random.within(23, 100),
    );
    random.pick(&[near, near, near, any]).min(400) as u16
}

/// The least number of millionths of a newton that is not below it.
fn micronewtons(exact: &ExactForce) -> u64 {
    let (mut less, mut enough) = (0, 1_000_000 * exact.least_whole().0);
    while less < enough {
        let middle = less + (enough - less) / 2;
        if exact.compare(&Rational::fraction(middle, 1_000_000)) == Ordering::Greater {
            less = middle + 1;
        } else {
            enough = middle;
        }
    }
    enough
}

/// All whole pressures from 0 to q are tried.
#[test]
fn no_whole_pressure_has_a_greater_value_and_one_has_the_same() {
    let mut random = Random(0x5eed_0701);
    let (mut governed, mut hung, mut iced, mut many) = (0, 0, 0, 0);
    for _ in 0..2_000 {
        let (tower, wind) = drawn(&mut random);
        let (ice, pressure) = (wind.ice_thickness(), wind.pressures[0]);
        if judge_pressures(&tower, wind.ice_class, &wind.pressures).is_err() {
            continue;
        }
        let value = |pressure| formula(&tower, &wind, 0, pressure);
        let every = ExactForce::greatest((0..=pressure).map(value).collect());
        let exact = exact_force(&tower, &wind, 0);
        let millionths = micronewtons(&exact);
        for beside in [millionths.saturating_sub(1), millionths, millionths + 1] {
            let fraction = Rational::fraction(beside, 1_000_000);
            let said = format!("{tower:?} {wind:?}");
            assert_eq!(exact.compare(&fraction), every.compare(&fraction), "{said}");
        }
        assert_eq!(exact.least_whole(), every.least_whole());
        let alone = value(pressure).least_whole();
        let lesser = exact.least_whole() > alone;
        governed += usize::from(lesser);
        hung += usize::from(lesser && !tower.items.is_empty());
        iced += usize::from(ice > Length(0));
        many += usize::from(lesser_pressures(&tower.sections[0], ice, pressure).len() > 3);
    }
    let counts = [governed, hung, iced, many];
    let enough = counts.iter().zip([250, 100, 200, 250]);
    let enough = enough.into_iter().all(|(count, least)| *count >= least);
    assert!(enough, "{counts:?}");
}
