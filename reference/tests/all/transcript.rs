//! Document 01's samples in the transcript of the program `samples`; the numbers
//! are document 01's.

use reference::refusal::ANSWERS;
use reference::transcript::{files, samples, transcript};
use std::collections::BTreeSet;
use std::sync::OnceLock;

/// A request's line and its answer's lines.
type Answered = (String, Vec<String>);

/// Each title with what was asked and answered behind it.
fn sections() -> &'static [(String, Vec<Answered>)] {
    static SECTIONS: OnceLock<Vec<(String, Vec<Answered>)>> = OnceLock::new();
    SECTIONS.get_or_init(|| {
        let stdout = files().pop().expect("two files");
        assert_eq!(stdout.name, "stdout");
        let text = String::from_utf8(stdout.bytes).expect("text");
        let mut sections: Vec<(String, Vec<Answered>)> = Vec::new();
        for line in text.lines() {
            if let Some(title) = line.strip_prefix("# ") {
                sections.push((title.to_string(), Vec::new()));
                continue;
            }
            let (_, asked) = sections.last_mut().expect("a title");
            match line.strip_prefix("> ") {
                Some(request) => asked.push((request.to_string(), Vec::new())),
                None => asked
                    .last_mut()
                    .expect("a request")
                    .1
                    .push(line.to_string()),
            }
        }
        sections
    })
}

/// What was asked and answered under the only title that begins so.
fn under(title: &str) -> &'static [Answered] {
    let sections = sections().iter();
    let found: Vec<_> = sections
        .filter(|(with, _)| with.starts_with(title))
        .collect();
    let [(_, asked)] = found[..] else {
        panic!("{} titles: {title}", found.len());
    };
    asked
}

/// The answers under a title, a line or more each.
fn answers(title: &str) -> Vec<String> {
    let asked = under(title).iter();
    asked.map(|(_, answer)| answer.join("\n")).collect()
}

/// A report on one section: the moment is the force times half the height.
fn row(areas: [u64; 3], force: u64, height: u64) -> String {
    let [flat, subcritical, supercritical] = areas;
    let moment = force * height / 2;
    format!("ok 1\n{flat} {subcritical} {supercritical} {force} {force} {moment}")
}

fn flats(force: u64) -> String {
    row([2_400_000, 0, 0], force, 6_000)
}

fn rounds(force: u64) -> String {
    row([0, 2_400_000, 0], force, 6_000)
}

/// Accepted, then this report.
fn reports(title: &str, report: &str) {
    let answers = answers(title);
    let (last, others) = answers.split_last().expect("a report");
    assert_eq!(last, report, "{title}");
    assert!(others.iter().all(|answer| answer == "ok"), "{title}");
}

#[test]
fn the_starred_samples() {
    reports(
        "Four legs, flat 100 by 24 000, k = 0: exact 7 032.96",
        &flats(7_033),
    );
    reports("k = 1: exact 7 226.3664", &flats(7_227));
    reports("k = 3: exact 7 806.5856", &flats(7_807));
    let iced = row([3_360_000, 0, 0], 8_761, 6_000);
    reports("The same with ice class 2, k = 0: exact 8 760.40704", &iced);
    reports(
        "Three legs, same group, k = 0: exact 6 099.456",
        &flats(6_100),
    );
    reports("k = 2: exact 5 794.4832", &flats(5_795));
    reports("k = 4: exact 5 489.5104", &flats(5_490));
    reports(
        "Four legs, round 100 by 24 000: 4 080 exactly",
        &rounds(4_080),
    );
    let rational = row([0, 0, 1_830_000], 1_982, 5_000);
    reports(
        "Three legs, h = 5 000, round 300 by 6 100: root 0.817, exact 1 981.89",
        &rational,
    );
    let root = row([0, 0, 2_400_000], 2_600, 6_000);
    reports("Three legs, round 300 by 8 000: 1.9 - sqrt(0.6672)", &root);
    // c_c of phi = 0.125 times 1.5 m2, then c_p with the root of 0.315
    let subcritical = row([0, 1_500_000, 0], 2_816, 6_000);
    reports("Round 150 by 10 000: q = 1 000 subcritical", &subcritical);
    // 1 000 governs, and the areas are those at 1 001
    let supercritical = row([0, 0, 1_500_000], 2_816, 6_000);
    reports(
        "Round 150 by 10 000: q = 1 001 supercritical",
        &supercritical,
    );
}

/// Request M-103: the triangle's sample, and three sections of which each of
/// the pressures 1 200, 1 000 and 250 governs one.
#[test]
fn lesser_winds_govern_where_they_have_the_greatest_force() {
    let round = |areas, force| row(areas, force, 5_000);
    reports(
        "Three legs, h = 5 000, round 300 by 6 100, q = 250",
        &round([0, 1_830_000, 0], 690),
    );
    reports("q = 251", &round([0, 0, 1_830_000], 690));
    reports("q = 1 000", &round([0, 0, 1_830_000], 1_982));
    // c_c = 1.7 and c_p = 1.9 - sqrt(0.348) on 1.2 m2 each
    let c_p = 1.9 - 0.348_f64.sqrt();
    assert_eq!((1_200.0 * 2.4 * c_p).ceil(), 3_774.0);
    assert_eq!((1_000.0 * 1.2 * (1.7 + c_p)).ceil(), 3_613.0);
    let three = |forces: [u64; 3]| {
        let areas = ["0 0 2400000", "0 0 2400000", "0 1200000 1200000"];
        let (mut shear, mut moment) = (0, 0);
        let row = |(areas, force): (&str, u64)| {
            moment += 6_000 * shear + 3_000 * force;
            shear += force;
            format!("\n{areas} {force} {shear} {moment}")
        };
        let rows: String = areas.into_iter().zip(forces).map(row).collect();
        format!("ok 3{rows}")
    };
    let title = "Full pressure governs the top section, 1 000 the next, 250 the lowest";
    reports(title, &three([3_774, 3_613, 1_020]));
    let title = "The item on the middle section counts in the wind of 1 000 that governs";
    reports(title, &three([3_774, 4_189, 1_020]));
}

/// Request M-112: the triangle's sample twice, c_c = 1.506151975 and c_p = 1.083 on
/// 1.83 m2, under pressures of which none falls.
#[test]
fn forces_do_not_fall_where_pressures_rise() {
    let two = |supercritical: [bool; 2], forces: [u64; 2]| {
        let areas = supercritical.map(|is| if is { "0 0 1830000" } else { "0 1830000 0" });
        let [upper, lower] = forces;
        let (shear, moment) = (upper + lower, 7_500 * upper + 2_500 * lower);
        format!(
            "ok 2\n{} {upper} {upper} {}\n{} {lower} {shear} {moment}",
            areas[0],
            2_500 * upper,
            areas[1]
        )
    };
    let title = "Three legs, two sections with h = 5 000 and round 300 by 6 100, 249 on both";
    reports(title, &two([false, false], [687, 687]));
    reports("250 on the upper one", &two([false, false], [690, 687]));
    reports("251 on the lower one", &two([false, true], [690, 690]));
    reports("347 on the upper one", &two([true, true], [690, 690]));
    reports("348 on the upper one", &two([true, true], [690, 690]));
    reports("349 on the upper one", &two([true, true], [692, 690]));
    reports("5 000 on both", &two([true, true], [9_910, 9_910]));
}

#[test]
fn the_item_adds_576() {
    let hung = |without: String, with: String| {
        ["ok", "ok", &without, "ok", &with, "ok", &without].map(String::from)
    };
    let wanted = [
        hung(rounds(4_080), rounds(4_080 + 576)),
        hung(flats(7_033), flats(7_609)),
    ];
    let title = "Item 300 by 2 000, coefficient 1 200, K 800: adds 576";
    assert_eq!(answers(title), wanted.concat());
    assert_eq!(under(title)[3].0, "hang 7 0 300 2000 1200 1200 800");
}

#[test]
fn two_sections_like_the_first() {
    let both = "ok 2\n2400000 0 0 7033 7033 21099000\n2400000 0 0 7033 14066 84396000";
    reports(
        "Two sections like the first, both reported as 7 033: moments 21 099 000 and 84 396 000",
        both,
    );
    let file = "ok 040207d01770000000000100006400005dc007d01770000000000100006400005dc000";
    let wanted = ["refused 22", both, both, "refused 22", file, file];
    assert_eq!(
        answers("Its report fills 12 numbers, its file 35 bytes"),
        wanted
    );
}

#[test]
fn full_faces_are_accepted_and_1_mm2_more_is_8_or_20() {
    let bare = row([12_000_000, 0, 0], 23_760, 6_000);
    reports("A_S equal to A_u, 12 000 000 mm2, is accepted", &bare);
    let more = answers("1 mm2 more is 8 bare; the tower before it still stands");
    assert_eq!(more, ["refused 8", &bare]);
    let full = answers("A_S equal to A_u under ice class 1 is accepted");
    assert_eq!(full[..2], ["ok", "ok"]);
    assert_eq!(full[3], "ok");
    assert!(full[4].starts_with("ok 1\n11999979 21 0 "), "{}", full[4]);
    let more = answers("1 mm2 more is 20 iced; the wind before it still blows");
    assert_eq!(more[..2], ["ok", "ok"]);
    assert_eq!(more[3], "refused 20");
    assert_eq!(more[2], more[4]);
    // 80 by 119 979, 1 by 99, and 2 by 1
    assert!(more[4].starts_with("ok 1\n9598419 2 0 "), "{}", more[4]);
}

#[test]
fn sixty_four_items_hold_and_the_65th_is_9() {
    let first = answers("64 items hold; the 65th is 9.");
    // erect, 64 items and the 65th, wind
    assert!(first[..65].iter().all(|answer| answer == "ok"));
    assert_eq!(first[65..], ["refused 9", "ok", &flats(43_897)]);
    let again = answers("One of them down, 63 items: 43 321");
    let wanted = [
        "ok",
        &flats(43_321),
        "ok",
        &flats(43_897),
        "refused 9",
        "refused 22",
    ];
    assert_eq!(again, wanted);
    let file = answers("In a file, 64 items hold and 65 are 9");
    let [erected, written, refused, kept] = &file[..] else {
        panic!("{file:?}");
    };
    assert_eq!((erected.as_str(), refused.as_str()), ("ok", "refused 9"));
    assert_eq!(written.len(), "ok ".len() + 2 * (19 + 64 * 13));
    assert_eq!(written, kept);
}

#[test]
fn faults_that_a_reader_makes() {
    reports("Taking phi with the items in it", &flats(7_609));
    let iced = answers("Classing a round by its iced diameter");
    assert!(iced[2].starts_with("ok 1\n0 1700000 0 "), "{}", iced[2]);
    // 750 000 (1.9 - sqrt(1.634 / 150 000 000)), less 1 mm2 of 1.9 times 5 000 N/m2
    let exact = 749_999.995 * (1.9 - (1.634_f64 / 1.5e8).sqrt());
    assert_eq!(exact.ceil(), 1_424_922.0);
    let near = row([0, 0, 149_999_999], 1_424_922, 10_000);
    reports("Rounding phi before the root", &near);
    let turned = |title: &str| -> Vec<String> {
        let asked = under(title).iter();
        let reports = asked.filter(|(request, _)| request == "report");
        reports.map(|(_, answer)| answer.join("\n")).collect()
    };
    let triangle = [5_795, 5_490, 5_795, 6_100].map(flats);
    assert_eq!(turned("Measuring theta of a triangle"), triangle);
    let square = [7_614, 7_807, 7_614, 7_033].map(flats);
    assert_eq!(turned("The square's table"), square);
}

/// The four ways to the same tower: in a file, hung in two orders, and after
/// many hangings and removals.
#[test]
fn other_orders_and_a_history_give_the_same_report() {
    let titles = [
        "Three sections and 12 items: the items in the file",
        "The same tower, its items hung one by one",
        "Hung in another order",
        "After 80 hangings and 80 removals",
    ];
    let ways = titles.map(answers);
    let last: BTreeSet<&String> = ways.iter().filter_map(|answers| answers.last()).collect();
    assert_eq!(last.len(), 1);
    assert!(last.iter().all(|answer| answer.starts_with("ok 3\n")));
    for answers in &ways {
        let (_, others) = answers.split_last().expect("a report");
        assert!(others.iter().all(|answer| answer == "ok"));
    }
    assert_eq!(ways.map(|answers| answers.len()), [3, 15, 15, 175]);
    let orders: BTreeSet<Vec<&str>> = titles[1..]
        .iter()
        .map(|title| {
            let asked = under(title).iter().map(|(request, _)| request.as_str());
            let hung: Vec<&str> = asked.filter(|text| text.starts_with("hang ")).collect();
            hung[hung.len() - 12..].to_vec()
        })
        .collect();
    assert_eq!(orders.len(), 3);
}

#[test]
fn allowances_may_be_reached() {
    let cases = [
        ("7 033 and 14 066", "none", "0"),
        ("7 032 and 14 065", "0", "0"),
        ("7 033 and 14 065", "1", "0"),
        ("0 and 1", "1", "1"),
        ("7 609 and 14 642", "none", "none"),
        ("0 and 0", "none", "none"),
    ];
    for (allowances, bare, hung) in cases {
        let title = format!("Allowances {allowances}: {bare}, then {hung}");
        let (bare, hung) = (format!("ok {bare}"), format!("ok {hung}"));
        let wanted = ["ok", "refused 21", "ok", &bare, "ok", &hung];
        assert_eq!(answers(&title), wanted, "{title}");
    }
}

#[test]
fn check_names_the_topmost_of_three() {
    let cases = [
        ("All three sections over: ", "0"),
        ("The two lower sections over: ", "1"),
        ("The top section without an allowance, the others", "1"),
        ("The top section over and the lowest, ", "0"),
        ("The top section without an allowance, the next", "2"),
        ("No section over: ", "none"),
    ];
    for (title, named) in cases {
        let wanted = ["ok", "ok", &format!("ok {named}")];
        assert_eq!(answers(title), wanted, "{title}");
    }
}

/// Each refusal under its number in document 01, and no other there.
#[test]
fn every_refusal_under_its_sentence() {
    for number in 1..ANSWERS {
        let found = answers(&format!("{number}. "));
        let refused: Vec<&String> = found.iter().filter(|answer| *answer != "ok").collect();
        assert!(!refused.is_empty(), "{number}");
        let wanted = format!("refused {number}");
        assert!(refused.iter().all(|answer| **answer == wanted), "{found:?}");
    }
    let standing = answers("When a call is turned down");
    assert_eq!(
        standing,
        [
            "ok",
            "ok 040107d01770000000000100006400005dc001000700012c07d004b004b00320"
        ]
    );
    assert_eq!(answers("1. Any call"), ["refused 1"; 6]);
}

/// A person reads it, and no line is wrong.
#[test]
fn titles_are_ascii_and_all_lines_are_requests() {
    assert_eq!(files(), files());
    let titles: BTreeSet<&str> = samples().into_iter().map(|sample| sample.title).collect();
    assert_eq!(titles.len(), samples().len());
    for file in files() {
        assert!(file.bytes.is_ascii() && file.bytes.ends_with(b"\n"));
        assert!(file.bytes.len() < 40_000, "{}", file.bytes.len());
    }
    for (title, asked) in sections() {
        assert!((1..=120).contains(&title.len()), "{title}");
        for (request, answer) in asked {
            let first = answer.first().expect("an answer");
            let right = first.starts_with("ok") || first.starts_with("refused ");
            assert!(right, "{request}: {first}");
        }
    }
}

#[test]
fn a_transcript_shows_titles_requests_and_answers() {
    let input = b"# A title\ncheck\n#\n\nx\n#check\n # no title\nhelp";
    let start = "# A title\n> check\nrefused 1\n#\n\
                 > \nerror unknown request, try help\n\
                 > x\nerror unknown request, try help\n\
                 #check\n\
                 >  # no title\nerror unknown request, try help\n\
                 > help\n";
    let wanted = [start, reference::requests::HELP].concat();
    assert_eq!(transcript(input), wanted.as_bytes());
    assert_eq!(transcript(b""), b"");
}
