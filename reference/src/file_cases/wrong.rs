//! Lines that are no case, each with the message that answers it and a case
//! behind it that shows the base file unchanged; and cases in other spellings.

use super::messages::{BYTE, COUNT, FORM, NOT_A_CASE, RANGE, TOO_LARGE, TOO_MANY};
use super::towers::smallest;
use super::{Case, Line, Meaning};
use crate::file;

/// The most bytes of a file, the most lent bytes and the most numbers of a line.
pub const MOST_BYTES: usize = 4_000;

/// Bytes of the smallest file, which is the base file of the tables.
const BASE: usize = 19;

/// The least that is too large.
const LARGE: &str = "10000000000000000000";

/// Messages, each with lines that break its rule alone. Some numbers would be
/// right with fewer bits: 65 555 is 2¹⁶ + 19, 4 294 967 315 is 2³² + 19.
const ONE_RULE: &[(&str, &[&str])] = &[
    (
        NOT_A_CASE,
        &[
            "", " ", "x", "0", "-", "4 1", "b 0", "d 0", "e 0", "g 0", "q 0", "t 0", "F 4", "C 0",
            "S 0 4", "A 0", "R 19", "²", "é 4", " f", " c 0", "ff", "fc 0", "f4", "f4 1", "c0",
            "c19", "s0 4", "a0", "r19", "f\t4", "c\t0", "f,4", "f²", "c\r",
        ],
    ),
    (
        FORM,
        &[
            "f ",
            "c ",
            "s ",
            "a ",
            "r ",
            "f  4",
            "c  0",
            "f 4 ",
            "c 0 ",
            "r 19 ",
            "f 4  1",
            "s 0  4",
            "f x",
            "f 4 x",
            "f 4x",
            "c 0x10",
            "s 0 4,1 1",
            "f -4",
            "f +4",
            "c 1.0",
            "c 1e1",
            "a /",
            "a :",
            "f 4\t1",
            "c 0\r",
            "f 4\r",
            "r 19²",
            "f f 4",
            "c 0 c 0",
            "r 1_9",
        ],
    ),
    (
        TOO_LARGE,
        &[
            "c 10000000000000000000",
            "r 10000000000000000000",
            "f 4 10000000000000000000",
            "s 10000000000000000000 4",
            "s 0 18446744073709551615",
            "c 18446744073709551616",
            "c 18446744073709551635",
            "s 18446744073709551616 4",
            "f 18446744073709551620 1",
            "a 340282366920938463463374607431768211456",
        ],
    ),
    (
        COUNT,
        &[
            "a",
            "c",
            "s",
            "r",
            "c 0 0",
            "c 19 19",
            "r 19 0",
            "r 0 19 0",
            "s 0",
            "s 0 4 1",
            "s 0 4 0 4 0",
        ],
    ),
    (
        BYTE,
        &[
            "f 256",
            "f 4 1 256",
            "f 256 4",
            "f 260",
            "f 65540",
            "f 4294967300",
            "f 9999999999999999999",
            "a 256",
            "a 0 256",
            "a 256 0",
            "a 4294967296",
            "s 0 256",
            "s 0 260",
            "s 0 4294967300",
            "s 0 4 1 257",
            "s 18 9999999999999999999",
        ],
    ),
    (
        RANGE,
        &[
            "c 20",
            "c 275",
            "c 4000",
            "c 65555",
            "c 4294967315",
            "c 9999999999999999999",
            "s 19 0",
            "s 256 4",
            "s 65536 4",
            "s 4294967296 4",
            "s 9999999999999999999 4",
            "s 0 3 19 0",
            "s 0 5 1 0 19 0",
            "r 4001",
            "r 65555",
            "r 4294967315",
            "r 9999999999999999999",
        ],
    ),
];

/// Messages, each with lines that also break a later rule.
const TWO_RULES: &[(&str, &[&str])] = &[
    (
        NOT_A_CASE,
        &["fx 10000000000000000000", "g ", "x 256", "c4001"],
    ),
    (
        FORM,
        &[
            "c x 10000000000000000000",
            "c 0 0 x",
            "f 256 x",
            "r 4001 ",
            "s 19 ",
        ],
    ),
    (
        TOO_LARGE,
        &[
            "c 10000000000000000000 x",
            "c 10000000000000000000x",
            "c 20 10000000000000000000",
            "f 256 10000000000000000000",
            "s 0 4 10000000000000000000",
        ],
    ),
    (
        COUNT,
        &["c 20 0", "r 4001 0", "s 19", "s 0 256 19", "s 19 256 0"],
    ),
    (BYTE, &["s 0 256 19 0", "s 0 3 1 256 19 0"]),
    (RANGE, &["s 19 256", "s 19 0 0 256", "s 0 4 19 256"]),
];

fn wrong(text: String, message: &'static str) -> Line {
    Line {
        text,
        meaning: Meaning::Error(message),
    }
}

fn zeros(count: usize) -> String {
    vec!["0"; count].join(" ")
}

/// Lines whose base file is the empty one, up to a file that is empty too.
pub fn before_a_file() -> Vec<Line> {
    let texts = [
        ("", NOT_A_CASE),
        ("f ", FORM),
        ("a", COUNT),
        ("f 4 1 0 256", BYTE),
        ("c 1", RANGE),
        ("s 0 4", RANGE),
        ("r 4001", RANGE),
    ];
    let wrong = texts.map(|(text, message)| wrong(text.to_string(), message));
    let file = file::write(&smallest());
    let shown = [Case::Room(0), Case::Add(file), Case::Cut(0)];
    let mut lines: Vec<Line> = shown.clone().map(Line::from).to_vec();
    lines.extend(each_with_a_case(wrong.to_vec(), &shown));
    let cases = [
        Case::Add(vec![4]),
        Case::Add(vec![0; MOST_BYTES]),
        Case::Room(MOST_BYTES),
        Case::File(Vec::new()),
        Case::Cut(0),
        Case::Room(0),
    ];
    lines.extend(cases.map(Line::from));
    lines
}

/// The lines, each with one of the cases behind it.
fn each_with_a_case(lines: Vec<Line>, cases: &[Case]) -> Vec<Line> {
    let pairs = lines.into_iter().zip(cases.iter().cycle());
    pairs
        .flat_map(|(line, case)| [line, case.clone().into()])
        .collect()
}

/// Wrong lines over the smallest file, then over the longest.
pub fn lines() -> Vec<Line> {
    let mut lines = vec![Case::File(file::write(&smallest())).into()];
    let tables = [flattened(ONE_RULE), flattened(TWO_RULES), long()].concat();
    let shown = [
        Case::Cut(BASE),
        Case::Room(BASE + 1),
        Case::Set(vec![(0, 3)]),
        Case::Add(vec![0]),
    ];
    lines.extend(each_with_a_case(tables, &shown));
    lines.extend(spellings());
    lines.extend(over_the_longest());
    lines
}

fn flattened(table: &[(&'static str, &[&str])]) -> Vec<Line> {
    let rows = table.iter().flat_map(|(message, texts)| {
        let row = texts.iter().map(|text| wrong(text.to_string(), message));
        row.collect::<Vec<Line>>()
    });
    rows.collect()
}

/// Lines with as many numbers as a line can have, or one more.
fn long() -> Vec<Line> {
    let (most, room) = (zeros(MOST_BYTES), zeros(MOST_BYTES - BASE));
    let less = zeros(MOST_BYTES - 1);
    vec![
        wrong(format!("f {most} "), FORM),
        wrong(format!("f {most} x"), FORM),
        wrong(format!("f {less} {LARGE} 0"), TOO_LARGE),
        wrong(format!("f {most} 0"), TOO_MANY),
        wrong(format!("f {most} 0x"), TOO_MANY),
        wrong(format!("f {most} {LARGE}"), TOO_MANY),
        wrong(format!("c {most} 0"), TOO_MANY),
        wrong(format!("c {most}"), COUNT),
        wrong(format!("s {less}"), COUNT),
        wrong(format!("a {room} 256"), BYTE),
        wrong(format!("a {room} 0"), RANGE),
    ]
}

/// Cases with zeros before a number, and bytes that are set more than once.
fn spellings() -> Vec<Line> {
    let spelled = |text: &str, case| Line {
        text: text.to_string(),
        meaning: Meaning::Case(case),
    };
    let mut lines = vec![
        spelled("c 000000000000000000000000000019", Case::Cut(BASE)),
        spelled("c 00", Case::Cut(0)),
        spelled("s 000 0000000000000000000000003", Case::Set(vec![(0, 3)])),
        spelled("a 000", Case::Add(vec![0])),
        spelled("r 000000000000000000000000000024", Case::Room(24)),
        wrong("f 03 000 0256".to_string(), BYTE),
    ];
    let cases = [
        Case::Set(vec![(0, 5), (0, 3)]),
        Case::Set(vec![(0, 3), (0, 5)]),
        Case::Set(vec![(0, 0); MOST_BYTES / 2]),
        Case::Cut(BASE),
    ];
    lines.extend(cases.map(Line::from));
    lines
}

/// With a base file of as many bytes as a file can have.
fn over_the_longest() -> Vec<Line> {
    let mut longest = file::write(&smallest());
    longest.resize(MOST_BYTES, 7);
    let mut lines = vec![Case::File(longest).into()];
    let texts = ["a 0", "c 4001", "s 4000 0", "s 3999 0 4000 0", "r 4001"];
    let wrong = texts.map(|text| wrong(text.to_string(), RANGE));
    let shown = [Case::Cut(BASE), Case::Room(MOST_BYTES)];
    lines.extend(each_with_a_case(wrong.to_vec(), &shown));
    let cases = [
        Case::Cut(MOST_BYTES),
        Case::Set(vec![(MOST_BYTES - 1, 0)]),
        Case::Set(vec![(0, 5)]),
    ];
    lines.extend(cases.map(Line::from));
    lines
}
