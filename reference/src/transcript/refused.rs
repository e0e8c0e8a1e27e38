//! Each refusal with document 01's sentence.

use super::{erect, first_sample, report, wind, Sample};
use crate::file;
use crate::requests::Request;
use crate::sample::{flat, item, round, sample, sample_wind};
use crate::tower::{Item, Legs, Tower, Wind};
use crate::units::Length;

/// On the fresh service, ahead of all else.
pub fn no_tower() -> Vec<Sample> {
    vec![Sample::new(
        "1. Any call but erect and the C call finds no tower.",
        [
            Request::Hang(item(7)),
            Request::TakeDown(7),
            wind(&first_sample(), 0, 0),
            report(),
            Request::Check,
            Request::Write(None),
        ],
    )]
}

/// 2 to 22, on a tower with an item.
pub fn samples() -> Vec<Sample> {
    let standing = Sample::new(
        "When a call is turned down: the first tower with item 7, as a file of 32 bytes",
        [erect(&tower()), Request::Write(None)],
    );
    [
        vec![standing],
        file_head(),
        file_sections(),
        items(),
        wind_numbers(),
        pressures(),
        outputs(),
    ]
    .concat()
}

fn tower() -> Tower {
    Tower {
        items: vec![item(7)],
        ..first_sample()
    }
}

/// The tower's file with another byte.
fn set(place: usize, byte: u8) -> Request {
    let mut file = file::write(&tower());
    file[place] = byte;
    Request::Erect(file)
}

fn file_head() -> Vec<Sample> {
    let file = file::write(&tower());
    let cut = |end: usize| Request::Erect(file[..end].to_vec());
    vec![
        Sample::new(
            "2. The file ends inside or before a field.",
            [cut(0), cut(18), cut(31)],
        ),
        Sample::new("3. Legs are neither 3 nor 4.", [set(0, 2), set(0, 5)]),
        Sample::new(
            "4. Section count is 0 or above 32.",
            [set(1, 0), set(1, 33)],
        ),
    ]
}

fn file_sections() -> Vec<Sample> {
    let overfull = sample(Legs::Four, &[flat(100, 120_000), round(1, 1)]);
    vec![
        Sample::new(
            "5. A section's width or height breaks its range, or the height is odd.",
            [set(2, 255), set(4, 40), set(5, 113)],
        ),
        Sample::new("6. Group count is 0 or above 8.", [set(10, 0), set(10, 9)]),
        Sample::new(
            "7. A group's kind, width or length breaks its range.",
            [set(11, 2), set(12, 4), set(15, 4)],
        ),
        Sample::new(
            "8. After a section's last group its bare A_S is above A_u.",
            [erect(&overfull)],
        ),
    ]
}

/// Of a file and of hang and take down.
fn items() -> Vec<Sample> {
    let twice = Tower {
        items: vec![item(7), item(7)],
        ..tower()
    };
    let wide = Item {
        width: Length(3_001),
        ..item(8)
    };
    let nowhere = Item {
        section: 1,
        ..item(8)
    };
    let followed = [file::write(&tower()), vec![0]].concat();
    vec![
        Sample::new(
            "9. The file's item count is above 64, or hang finds 64 items.",
            [set(18, 65)],
        ),
        Sample::new(
            "10. Hang's item number is already held, or an item number came earlier in the same file.",
            [Request::Hang(item(7)), erect(&twice)],
        ),
        Sample::new(
            "11. The item's section does not exist.",
            [Request::Hang(nowhere), set(21, 1)],
        ),
        Sample::new(
            "12. Another item field breaks its range.",
            [Request::Hang(wide), set(30, 4)],
        ),
        Sample::new(
            "13. Bytes follow the last item, or the item count if that is 0.",
            [Request::Erect(followed), set(18, 0)],
        ),
        Sample::new(
            "14. Take down finds no such number.",
            [Request::TakeDown(8)],
        ),
    ]
}

/// The samples' wind with other numbers.
fn changed(change: fn(&mut Wind)) -> Request {
    let mut wind = sample_wind(&tower(), 0, 0);
    change(&mut wind);
    Request::Wind(wind)
}

fn wind_numbers() -> Vec<Sample> {
    let triangle = sample(Legs::Three, &[flat(100, 24_000)]);
    vec![
        Sample::new(
            "15. k is above 23, or odd with three legs.",
            [
                changed(|wind| wind.direction = 24),
                erect(&triangle),
                wind(&triangle, 1, 0),
            ],
        ),
        Sample::new(
            "16. Ice class is above 5.",
            [changed(|wind| wind.ice_class = 6)],
        ),
        Sample::new(
            "17. The structure factor breaks its range.",
            [
                changed(|wind| wind.structure_factor = 499),
                changed(|wind| wind.structure_factor = 2_001),
            ],
        ),
    ]
}

fn pressures() -> Vec<Sample> {
    let full = sample(Legs::Four, &[flat(100, 120_000)]);
    vec![
        Sample::new(
            "18. Pressures are not one per section (C call: not 2 bytes per section).",
            [
                changed(|wind| wind.pressures.clear()),
                changed(|wind| wind.pressures.push(1_000)),
            ],
        ),
        Sample::new(
            "19. A pressure is above 5 000.",
            [changed(|wind| wind.pressures[0] = 5_001)],
        ),
        Sample::new(
            "20. Some section's iced A_S is above A_u.",
            [erect(&full), wind(&full, 0, 1)],
        ),
    ]
}

fn outputs() -> Vec<Sample> {
    vec![
        Sample::new(
            "21. Report or check finds no wind.",
            [report(), Request::Check],
        ),
        Sample::new(
            "22. The lent output has fewer elements than the answer fills (report: 6 per section; write: the file's length).",
            [
                wind(&first_sample(), 0, 0),
                Request::Report(Some(5)),
                Request::Write(Some(18)),
            ],
        ),
    ]
}
