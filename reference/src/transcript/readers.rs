//! Towers that show the faults which a reader of the annex makes.

use super::{erect, first_sample, report, reported, wind, Sample};
use crate::requests::Request;
use crate::sample::{flat, round, sample, sample_wind, section, tower};
use crate::tower::{Legs, Tower, Wind};

/// In the order of document 01, but for the tower that drifts.
pub fn samples() -> Vec<Sample> {
    let mut samples = vec![Sample::heading("Faults that a reader of the annex makes")];
    samples.extend([items_in_the_ratio(), iced_diameter(), rounded_ratio()]);
    samples.extend(tables());
    samples
}

fn items_in_the_ratio() -> Sample {
    let mut tower = first_sample();
    tower.items.push(crate::sample::item(7));
    Sample::new(
        "Taking phi with the items in it: phi stays 0.2, and the items add their own force, 7 609",
        reported(&tower),
    )
}

fn iced_diameter() -> Sample {
    let tower = sample(Legs::Four, &[round(150, 10_000)]);
    let strong = Wind {
        pressures: vec![5_000],
        ..sample_wind(&tower, 0, 1)
    };
    Sample::new(
        "Classing a round by its iced diameter: with ice it is subcritical at any q, 170 by 10 000 are A_c",
        [erect(&tower), Request::Wind(strong), report()],
    )
}

/// 15 m by 10 m, and 1 mm² short of a full face.
fn rounded_ratio() -> Sample {
    let groups = [round(1_000, 149_999), round(999, 1)];
    let tower = tower(Legs::Three, &[section(15_000, 10_000, &groups)]);
    let strong = Wind {
        pressures: vec![5_000],
        ..sample_wind(&tower, 0, 0)
    };
    Sample::new(
        "Rounding phi before the root: 1 mm2 below phi = 1, q = 5 000, it takes 78.3 off 1 425 000, so 1 424 922",
        [erect(&tower), Request::Wind(strong), report()],
    )
}

/// A square repeats itself every 90 degrees, a triangle every 120.
fn tables() -> [Sample; 2] {
    let square = first_sample();
    let triangle = sample(Legs::Three, &[flat(100, 24_000)]);
    let turned = |tower: &Tower, ks: [u32; 4]| {
        let winds = ks.map(|k| [wind(tower, k, 0), report()]);
        [vec![erect(tower)], winds.concat()].concat()
    };
    [
        Sample::new(
            "Measuring theta of a triangle in the square's table: k = 2, 4, 6, 8 give 5 795, 5 490, 5 795, 6 100",
            turned(&triangle, [2, 4, 6, 8]),
        ),
        Sample::new(
            "The square's table: k = 2, 3, 4, 6 give 7 614, 7 807, 7 614, 7 033",
            turned(&square, [2, 3, 4, 6]),
        ),
    ]
}
