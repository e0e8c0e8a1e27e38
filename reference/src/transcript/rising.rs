//! Pressures that rise on one section after the other.

use super::{blowing, erect, report, Sample};
use crate::sample::{round, section, tower};
use crate::tower::Legs;

/// Two sections of a starred sample. Its force is 689.0645285625 at 250, and less at
/// full pressure from 251 to 347.
pub fn samples() -> Vec<Sample> {
    let part = section(2_000, 5_000, &[round(300, 6_100)]);
    let tower = tower(Legs::Three, &[part.clone(), part]);
    let at = |title, pressures| Sample::new(title, [blowing(&tower, pressures), report()]);
    vec![
        Sample::heading("Request M-112: under more pressure no force, shear or moment is less."),
        Sample::new(
            "Three legs, two sections with h = 5 000 and round 300 by 6 100, 249 on both: exact 686.30827044825, so 687",
            [erect(&tower), blowing(&tower, &[249, 249]), report()],
        ),
        at("250 on the upper one: 690", &[250, 249]),
        at("251 on the lower one, which turns supercritical: 690, as at 250", &[250, 251]),
        at("347 on the upper one: 687.71583 at full pressure, 690 as at 250", &[347, 251]),
        at("348 on the upper one: 689.69772, so 690 again", &[348, 251]),
        at("349 on the upper one: 691.67961, so 692", &[349, 251]),
        at("5 000 on both: 9 909.45, so 9 910", &[5_000, 5_000]),
    ]
}
