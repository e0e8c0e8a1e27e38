//! The samples without a star.

use super::{erect, first_sample, report, reported, wind, Sample};
use crate::requests::Request;
use crate::sample::{flat, item, round, sample, tower};
use crate::tower::{Group, Legs, Tower, MOST_ITEMS};

/// In the order of document 01.
pub fn samples() -> Vec<Sample> {
    [two_sections(), full_faces(), many_items()].concat()
}

/// The report fills 12 numbers and the file 35 bytes.
fn two_sections() -> Vec<Sample> {
    let part = first_sample().sections;
    let tower = tower(Legs::Four, &[part.clone(), part].concat());
    let reports = [11, 12, 13].map(|room| Request::Report(Some(room)));
    let writes = [34, 35, 36].map(|room| Request::Write(Some(room)));
    vec![
        Sample::new(
            "Two sections like the first, both reported as 7 033: moments 21 099 000 and 84 396 000",
            reported(&tower),
        ),
        Sample::new(
            "Its report fills 12 numbers, its file 35 bytes; fewer that are lent are refused with 22",
            [reports, writes].concat(),
        ),
    ]
}

/// A tower or a wind that is refused leaves the one before. With 10 mm of ice the
/// groups are 100 mm by 119 979, 21 by 99, and 21 or 22 by 1.
fn full_faces() -> Vec<Sample> {
    let full = sample(Legs::Four, &[flat(100, 120_000)]);
    let more = sample(Legs::Four, &[flat(100, 120_000), round(1, 1)]);
    let groups = |last| -> [Group; 3] { [flat(80, 119_979), flat(1, 99), round(last, 1)] };
    let iced = |last| {
        let tower = sample(Legs::Four, &groups(last));
        let ice = [wind(&tower, 0, 1), report()];
        [&reported(&tower)[..], &ice].concat()
    };
    vec![
        Sample::new(
            "A_S equal to A_u, 12 000 000 mm2, is accepted: exact 23 760",
            reported(&full),
        ),
        Sample::new(
            "1 mm2 more is 8 bare; the tower before it still stands",
            [erect(&more), report()],
        ),
        Sample::new(
            "A_S equal to A_u under ice class 1 is accepted: 11 999 979 + 21 mm2",
            iced(1),
        ),
        Sample::new(
            "1 mm2 more is 20 iced; the wind before it still blows",
            iced(2),
        ),
    ]
}

/// A place that is free again is taken. In a file it is the same.
fn many_items() -> Vec<Sample> {
    let bare = first_sample();
    let most = MOST_ITEMS as u16;
    let file = |count: u16| {
        erect(&Tower {
            items: (0..count).map(item).collect(),
            ..bare.clone()
        })
    };
    let write = Request::Write(Some(19 + 13 * 64));
    let hung = (0..=most).map(|number| Request::Hang(item(number)));
    let again = [
        Request::TakeDown(0),
        report(),
        Request::Hang(item(most)),
        report(),
        Request::Hang(item(0)),
        Request::Write(Some(18 + 13 * 64)),
    ];
    let shown = [wind(&bare, 0, 0), report()];
    vec![
        Sample::new(
            "64 items hold; the 65th is 9. Each adds 576, so 7 032.96 + 36 864 is reported as 43 897",
            [erect(&bare)].into_iter().chain(hung).chain(shown),
        ),
        Sample::new(
            "One of them down, 63 items: 43 321; its place is taken again, and the next is 9",
            again,
        ),
        Sample::new(
            "In a file, 64 items hold and 65 are 9; the tower before it still stands",
            [file(most), write.clone(), file(most + 1), write],
        ),
    ]
}
