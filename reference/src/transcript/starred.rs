//! The starred samples.

use super::{erect, first_sample, report, reported, wind, Sample};
use crate::requests::Request;
use crate::sample::{flat, item, round, sample, sample_wind, section, tower};
use crate::tower::{Legs, Tower, Wind};

/// In the order of document 01.
pub fn samples() -> Vec<Sample> {
    [headings(), flats(), rounds(), vec![with_items()], flows()].concat()
}

fn headings() -> Vec<Sample> {
    let lines = [
        "Sample towers of document 01. Structure factor 1 000, q = 1 000, one section, b = 2 000, h = 6 000,",
        "k = 0, ice class 0 and no items unless said. The six numbers of a section: A_f, A_c and A_p in mm2,",
        "force in N, shear at its foot in N, moment at its foot in N mm.",
    ];
    lines.map(Sample::heading).to_vec()
}

/// On four legs and on three.
fn flats() -> Vec<Sample> {
    let square = first_sample();
    let triangle = sample(Legs::Three, &[flat(100, 24_000)]);
    let turned = |title, tower: &Tower, k, ice| Sample::new(title, [wind(tower, k, ice), report()]);
    vec![
        Sample::new(
            "Four legs, flat 100 by 24 000, k = 0: exact 7 032.96, so 7 033",
            reported(&square),
        ),
        turned("k = 1: exact 7 226.3664, so 7 227", &square, 1, 0),
        turned("k = 3: exact 7 806.5856, so 7 807", &square, 3, 0),
        turned(
            "The same with ice class 2, k = 0: exact 8 760.40704, so 8 761",
            &square,
            0,
            2,
        ),
        Sample::new(
            "Three legs, same group, k = 0: exact 6 099.456, so 6 100",
            reported(&triangle),
        ),
        turned("k = 2: exact 5 794.4832, so 5 795", &triangle, 2, 0),
        turned("k = 4: exact 5 489.5104, so 5 490", &triangle, 4, 0),
    ]
}

fn rounds() -> Vec<Sample> {
    let rational = tower(Legs::Three, &[section(2_000, 5_000, &[round(300, 6_100)])]);
    vec![
        Sample::new(
            "Four legs, round 100 by 24 000: 4 080 exactly",
            reported(&sample(Legs::Four, &[round(100, 24_000)])),
        ),
        Sample::new(
            "Three legs, h = 5 000, round 300 by 6 100: root 0.817, exact 1 981.89, so 1 982",
            reported(&rational),
        ),
        Sample::new(
            "Three legs, round 300 by 8 000: 1.9 - sqrt(0.6672), so 2 600",
            reported(&sample(Legs::Three, &[round(300, 8_000)])),
        ),
    ]
}

/// Hung and taken down again.
fn with_items() -> Sample {
    let (square, rounds) = (first_sample(), sample(Legs::Four, &[round(100, 24_000)]));
    let hung = |tower: &Tower| {
        let again = [Request::TakeDown(7), report()];
        let hung = [Request::Hang(item(7)), report()];
        [&reported(tower)[..], &hung, &again].concat()
    };
    Sample::new(
        "Item 300 by 2 000, coefficient 1 200, K 800: adds 576, so 4 656 for 4 080 and 7 609 for 7 032.96",
        [hung(&rounds), hung(&square)].concat(),
    )
}

/// The diameter and pressure at which 2 q d2 is 45 000 000.
fn flows() -> Vec<Sample> {
    let tower = sample(Legs::Four, &[round(150, 10_000)]);
    let above = Wind {
        pressures: vec![1_001],
        ..sample_wind(&tower, 0, 0)
    };
    vec![
        Sample::new(
            "Round 150 by 10 000: q = 1 000 subcritical, so its 1 500 000 mm2 are A_c",
            [erect(&tower), wind(&tower, 0, 0), report()],
        ),
        Sample::new(
            "Round 150 by 10 000: q = 1 001 supercritical, so its 1 500 000 mm2 are A_p",
            [Request::Wind(above), report()],
        ),
    ]
}
