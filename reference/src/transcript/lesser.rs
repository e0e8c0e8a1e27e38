//! Lesser winds that govern a section, and ones that do not.

use super::{blowing, erect, report, Sample};
use crate::requests::Request;
use crate::sample::{item, round, sample, section, tower};
use crate::tower::{Item, Legs};

/// A starred sample at three pressures, then a tower of two rounds.
pub fn samples() -> Vec<Sample> {
    let heading =
        "Request M-103: a section with supercritical rounds is also worked out in lesser winds.";
    [vec![Sample::heading(heading)], starred(), two_rounds()].concat()
}

fn starred() -> Vec<Sample> {
    let tower = tower(Legs::Three, &[section(2_000, 5_000, &[round(300, 6_100)])]);
    let at = |pressure| [blowing(&tower, &[pressure]), report()];
    vec![
        Sample::new(
            "Three legs, h = 5 000, round 300 by 6 100, q = 250: subcritical, exact 689.0645285625, so 690",
            [&[erect(&tower)][..], &at(250)].concat(),
        ),
        Sample::new(
            "q = 251: supercritical, so A_p, with 497.45439; 250 governs with 689.0645285625, so 690",
            at(251),
        ),
        Sample::new(
            "q = 1 000: full pressure governs, exact 1 981.89, so 1 982",
            at(1_000),
        ),
    ]
}

/// Three sections, so that each of the three pressures governs one.
fn two_rounds() -> Vec<Sample> {
    let part = sample(Legs::Four, &[round(300, 4_000), round(150, 8_000)]).sections;
    let tower = tower(Legs::Four, &[part.clone(), part.clone(), part].concat());
    let hung = Item {
        section: 1,
        ..item(7)
    };
    let lines = [
        "Three sections of four legs, each with rounds 300 by 4 000, subcritical up to 250, and 150 by 8 000, up to 1 000.",
        "1 020 at 250 and 3 612.1.. at 1 000; at full pressure 3 773.04.. for 1 200, 3 458.6.. for 1 100, 939.1.. for 260.",
    ];
    let mut samples = lines.map(Sample::heading).to_vec();
    samples.push(Sample::new(
        "Full pressure governs the top section, 1 000 the next, 250 the lowest: 3 774, 3 613, 1 020; areas as at q",
        [erect(&tower), blowing(&tower, &[1_200, 1_100, 260]), report()],
    ));
    samples.push(Sample::new(
        "The item on the middle section counts in the wind of 1 000 that governs: 576 more, so 4 189",
        [Request::Hang(hung), report()],
    ));
    samples
}
