//! The mast and the session in the folder `examples`.

use crate::common::rows;
use reference::description::{file_of, text_of};
use reference::file;
use reference::requests::session;
use reference::service::Service;
use reference::tower::{Item, Legs, Member, Tower};
use reference::units::Length;
use std::path::Path;

/// Pressures that fall from the top to the foot.
const PRESSURES: [u16; 12] = [
    1_100, 1_080, 1_055, 1_030, 1_000, 970, 935, 895, 855, 810, 755, 700,
];

fn example(name: &str) -> Vec<u8> {
    let root = Path::new(env!("CARGO_MANIFEST_DIR"));
    std::fs::read(root.join("../examples").join(name)).expect("an example")
}

fn mast() -> Tower {
    file::read(&example("mast.tower")).expect("a tower")
}

/// The mast under wind without ice.
fn windy() -> Service {
    let mut service = Service::fresh();
    assert_eq!(service.erect(&example("mast.tower")), Ok(()));
    assert_eq!(service.wind(0, 0, 1_050, &PRESSURES), Ok(()));
    service
}

/// One more dish on section 3, by its diameter in mm.
fn dish(diameter: u32) -> Item {
    Item {
        number: 207,
        section: 3,
        width: Length(diameter),
        length: Length(diameter),
        bare: 1_100,
        iced: 1_200,
        position: 1_000,
    }
}

#[test]
fn the_tower_file_is_that_of_the_description() {
    let file = file_of(&example("mast.txt")).expect("a description");
    assert_eq!(file, example("mast.tower"));
    let text = text_of(&mast());
    assert_eq!(file_of(text.as_bytes()).as_ref(), Ok(&file));
    assert_eq!(text_of(&file::read(&file).expect("a tower")), text);
}

#[test]
fn the_mast_has_three_tubular_legs_and_tapers() {
    let mast = mast();
    assert_eq!(mast.legs, Legs::Three);
    let height: Length = mast.sections.iter().map(|section| section.height).sum();
    assert_eq!(height, Length(60_000));
    let widths: Vec<Length> = mast.sections.iter().map(|section| section.width).collect();
    assert!(widths.is_sorted() && widths[0] < widths[11]);
    for section in &mast.sections {
        assert!(matches!(section.groups[0].member, Member::Round(_)));
        assert!(section.allowance.is_some());
    }
}

#[test]
fn the_mast_takes_wind_from_every_side_bare_and_iced() {
    for k in (0..24).step_by(2) {
        for ice in 0..=5 {
            for factor in [1_000, 1_100] {
                assert_eq!(windy().wind(k, ice, factor, &PRESSURES), Ok(()));
            }
        }
    }
}

/// Shear of tens of kN and a moment of some MN m at the foot; round members feel
/// no direction, and the flat ones little.
#[test]
fn the_forces_are_those_of_a_lattice_mast() {
    let mut service = windy();
    let front = rows(&service);
    assert!((60_000..90_000).contains(&front[70]), "{}", front[70]);
    assert!((1_500_000_000..3_000_000_000).contains(&front[71]));
    assert!(front.chunks(6).all(|row| (5_000..8_000).contains(&row[3])));
    assert!(front.chunks(6).any(|row| row[2] > 0), "supercritical");
    assert_eq!(service.wind(4, 0, 1_050, &PRESSURES), Ok(()));
    let side = rows(&service);
    assert!(side[70] < front[70] && side[70] > front[70] * 99 / 100);
}

#[test]
fn a_dish_of_1200_fits_and_one_of_1800_does_not() {
    for k in [0, 4] {
        let mut service = windy();
        assert_eq!(service.wind(k, 0, 1_050, &PRESSURES), Ok(()));
        assert_eq!(service.check(), Ok(None));
        assert_eq!(service.hang(dish(1_200)), Ok(()));
        assert_eq!(service.check(), Ok(None));
        assert_eq!(service.take_down(207), Ok(()));
        assert_eq!(service.hang(dish(1_800)), Ok(()));
        assert_eq!(service.check(), Ok(Some(7)));
        let over = (0..12).filter(|&section| service.is_over(section) == Ok(true));
        assert_eq!(over.collect::<Vec<u8>>(), [7]);
    }
}

#[test]
fn the_session_is_answered_as_stored() {
    let requests = String::from_utf8(example("session.txt")).expect("text");
    let words: Vec<&str> = requests
        .lines()
        .filter_map(|r| r.split(' ').next())
        .collect();
    let expected = "erect wind report check hang report check takedown check wind report write";
    assert_eq!(words.join(" "), expected);
    let answers = String::from_utf8(session(requests.as_bytes())).expect("text");
    let expected = String::from_utf8(example("session.out")).expect("text");
    for (answer, expected) in answers.lines().zip(expected.lines()) {
        assert_eq!(answer, expected);
    }
    assert!(answers == expected, "lines are missing or too many");
}

/// The README shows a session to paste, and behind it the answers.
#[test]
fn the_readme_has_the_answers_to_its_session() {
    let readme = Path::new(env!("CARGO_MANIFEST_DIR")).join("../README.md");
    let readme = std::fs::read_to_string(readme).expect("a README");
    let mut lines = readme.lines().map(str::trim_start);
    assert!(lines.any(|line| line == "./towerd <<'END'"));
    let text = |lines: Vec<&str>| lines.iter().map(|line| format!("{line}\n")).collect();
    let requests: String = text(lines.by_ref().take_while(|&line| line != "END").collect());
    assert_eq!(requests.lines().count(), 9);
    let shown = lines.skip_while(|line| line.is_empty());
    let shown: String = text(shown.take_while(|line| !line.is_empty()).collect());
    assert_eq!(session(requests.as_bytes()), shown.into_bytes());
}
