//! The first lines, which find no tower.

use super::calls::any_request;
use super::damage::damaged_file;
use super::faults::any_wrong;
use super::long::one_too_long;
use super::spoiled::spoiled;
use super::towers::Size;
use super::{Line, List};
use crate::draw::{self, Random};
use crate::file;
use crate::requests::{Fault, Request};
use crate::sample::{flat, item, sample, sample_wind};
use crate::tower::{Item, Legs, Tower, Wind};
use crate::units::Length;

/// Every request, right and wrong, then drawn ones; no file is accepted.
pub fn list() -> List {
    let mut lines = vec![
        Line::wrong("", Fault::UnknownRequest),
        Line::wrong("x", Fault::UnknownRequest),
        Request::Help.into(),
    ];
    lines.extend(right().map(Line::from));
    lines.push(Line::spelled("erect ", Request::Erect(Vec::new())));
    lines.extend(wrong().map(Line::from));
    lines.extend([one_too_long(0), Request::Help.into()]);
    let mut random = Random(0x5eed_0504);
    lines.extend((0..100).map(|_| drawn(&mut random)));
    List {
        name: "before a tower",
        lines,
    }
}

fn first_sample() -> Tower {
    sample(Legs::Four, &[flat(100, 24_000)])
}

/// Requests that the first sample takes, and the empty file.
fn right() -> [Request; 9] {
    [
        Request::Report(None),
        Request::Report(Some(6)),
        Request::Check,
        Request::Write(None),
        Request::Write(Some(19)),
        Request::Hang(item(7)),
        Request::TakeDown(7),
        Request::Wind(sample_wind(&first_sample(), 0, 0)),
        Request::Erect(Vec::new()),
    ]
}

/// Requests with further faults, which 1 comes before, and a file that is cut.
fn wrong() -> [Request; 6] {
    let nowhere = Item {
        section: 255,
        width: Length(0),
        ..item(65_535)
    };
    let mut cut = file::write(&first_sample());
    cut.pop();
    let wind = Wind {
        direction: 24,
        ice_class: 6,
        structure_factor: 0,
        pressures: Vec::new(),
    };
    [
        Request::Report(Some(0)),
        Request::Write(Some(0)),
        Request::Hang(nowhere),
        Request::TakeDown(65_535),
        Request::Wind(wind),
        Request::Erect(cut),
    ]
}

/// Anything but a file that is accepted.
fn drawn(random: &mut Random) -> Line {
    if random.chance(15) {
        return any_wrong(random);
    }
    if random.chance(15) {
        return Request::Erect(damaged(random)).into();
    }
    let tower = draw::small_tower(random, 3);
    match any_request(random, &tower, Size::Small) {
        Request::Erect(_) => Request::Check.into(),
        request if random.chance(10) => spoiled(random, request),
        request => request.into(),
    }
}

/// Some damage leaves a file whole.
fn damaged(random: &mut Random) -> Vec<u8> {
    loop {
        let file = damaged_file(random);
        if file::read(&file).is_err() {
            return file;
        }
    }
}
