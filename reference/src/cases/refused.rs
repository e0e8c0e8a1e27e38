//! Lines that are no case, each with the message that answers it.

/// A line and its message.
#[derive(Clone, Debug, PartialEq, Eq)]
pub struct Refused {
    /// Without its newline.
    pub line: String,
    /// It is printed after `error: `.
    pub message: &'static str,
}

fn refused(line: String, message: &'static str) -> Refused {
    Refused { line, message }
}

// In the order in which they are tested; the first three from left to right.
const FORM: &str = "not decimal numbers with single spaces between them";
const TOO_LARGE: &str = "a number is too large";
const TOO_MANY: &str = "there are too many numbers";
const MISSING: &str = "numbers are missing";
const LEGS: &str = "legs are neither 3 nor 4";
const DIRECTION: &str = "k is above 23, or odd with three legs";
const ICE: &str = "the ice class is above 5";
const FACTOR: &str = "the structure factor is not 500 to 2000";
const PRESSURE: &str = "the pressure is above 5000";
const SECTION: &str =
    "the width, the height or the number of groups is out of range, or the height is odd";
const GROUP: &str = "a kind, size or length of a group is out of range";
const SOLID: &str = "A_S is above A_u";
const ITEMS: &str = "there are more than 64 items";
const LEFT_OVER: &str = "numbers are left over";
const ITEM: &str = "an item is out of range";

/// The first sample, with its item.
const SAMPLE: [u64; 18] = [
    4, 0, 0, 1_000, 1_000, 2_000, 6_000, 1, 0, 100, 24_000, 1, 0, 300, 2_000, 1_200, 1_200, 800,
];

const TWO_16: u64 = 1 << 16;
const TWO_32: u64 = 1 << 32;
/// The largest that is read as a number.
const MOST: u64 = 9_999_999_999_999_999_999;

/// A place in the sample, and numbers that cannot stand there: beside the ends
/// of the range, and ones that fewer bits would make right.
const RANGES: &[(&str, usize, &[u64])] = &[
    (LEGS, 0, &[0, 2, 5, 259, 260, TWO_16 + 4, TWO_32 + 4, MOST]),
    (DIRECTION, 1, &[24, 255, 256, TWO_16, TWO_32, MOST]),
    (ICE, 2, &[6, 255, 256, TWO_16, TWO_32, MOST]),
    (
        FACTOR,
        3,
        &[0, 499, 2_001, TWO_16 + 1_000, TWO_32 + 1_000, MOST],
    ),
    (PRESSURE, 4, &[5_001, TWO_16, TWO_32, TWO_32 + 1_000, MOST]),
    (
        SECTION,
        5,
        &[0, 99, 15_001, TWO_16 + 2_000, TWO_32 + 2_000, MOST],
    ),
    (
        SECTION,
        6,
        &[0, 98, 5_999, 10_002, TWO_16 + 6_000, TWO_32 + 6_000, MOST],
    ),
    (SECTION, 7, &[0, 9, 257, TWO_16 + 1, TWO_32 + 1, MOST]),
    (GROUP, 8, &[2, 256, 257, TWO_16, TWO_32, MOST]),
    (GROUP, 9, &[0, 1_001, TWO_16 + 100, TWO_32 + 100, MOST]),
    (GROUP, 10, &[0, 200_001, TWO_32 + 24_000, MOST]),
    (ITEMS, 11, &[65, 257, TWO_16 + 1, TWO_32 + 1, MOST]),
    (ITEM, 12, &[32, 255, 256, TWO_16, TWO_32, MOST]),
    (ITEM, 13, &[0, 3_001, TWO_16 + 1, TWO_32 + 300, MOST]),
    (ITEM, 14, &[0, 10_001, TWO_16 + 1, TWO_32 + 2_000, MOST]),
    (ITEM, 15, &[3_001, TWO_16, TWO_32 + 1_200, MOST]),
    (ITEM, 16, &[3_001, TWO_16, TWO_32 + 1_200, MOST]),
    (ITEM, 17, &[1_001, TWO_16, TWO_32 + 800, MOST]),
];

/// Messages, each with lines that break its rule alone.
const ONE_RULE: &[(&str, &[&str])] = &[
    (
        FORM,
        &[
            "",
            " ",
            "x",
            "4 0 0 1000 1000 2000 6000 1 0 100 24000 x",
            "4 0 0 1000 1000 2000 6000 1 0 100 24000 0x",
            "4 0 0 1000 1000 2000 6000 1 0 1oo 24000 0",
            "4 0 0 1000 1000 2000 6000 1 0 100 24000 /",
            "4 0 0 1000 1000 2000 6000 1 0 100 24000 :",
            "4 0 0 1000 1000 2000 6000 1 0 100 24000 ²",
            "-4 0 0 1000 1000 2000 6000 1 0 100 24000 0",
            "+4 0 0 1000 1000 2000 6000 1 0 100 24000 0",
            "4 0 0 1000.0 1000 2000 6000 1 0 100 24000 0",
            "4,0,0,1000,1000,2000,6000,1,0,100,24000,0",
            "4  0 0 1000 1000 2000 6000 1 0 100 24000 0",
            " 4 0 0 1000 1000 2000 6000 1 0 100 24000 0",
            "4 0 0 1000 1000 2000 6000 1 0 100 24000 0 ",
            "4 0 0 1000 1000 2000 6000 1 0 100 24000\t0",
        ],
    ),
    (
        TOO_LARGE,
        &[
            "4 0 0 1000 10000000000000000000 2000 6000 1 0 100 24000 0",
            "4 0 0 1000 18446744073709551615 2000 6000 1 0 100 24000 0",
            "18446744073709551620 0 0 1000 1000 2000 6000 1 0 100 24000 0",
            "4 0 0 1000 1000 2000 6000 1 0 100 24000 18446744073709551616",
            "4 0 0 1000 1000 2000 6000 1 0 100 99999999999999999999 0",
            "4 0 0 1000 1000 2000 6000 1 0 100 24000 340282366920938463463374607431768211456",
        ],
    ),
    (
        MISSING,
        &[
            "4",
            "4 0 0 1000 1000 2000 6000",
            "4 0 0 1000 1000 2000 6000 1",
            "4 0 0 1000 1000 2000 6000 1 0 100",
            "4 0 0 1000 1000 2000 6000 1 0 100 24000",
            "4 0 0 1000 1000 2000 6000 2 0 100 24000",
            "4 0 0 1000 1000 2000 6000 2 0 100 24000 0",
            "4 0 0 1000 1000 2000 6000 1 0 100 24000 1",
            "4 0 0 1000 1000 2000 6000 1 0 100 24000 1 0 300 2000 1200 1200",
            "4 0 0 1000 1000 2000 6000 1 0 100 24000 2 0 300 2000 1200 1200 800",
        ],
    ),
    (
        DIRECTION,
        &[
            "3 1 0 1000 1000 2000 6000 1 0 100 24000 0",
            "3 23 0 1000 1000 2000 6000 1 0 100 24000 0",
            "3 24 0 1000 1000 2000 6000 1 0 100 24000 0",
        ],
    ),
    (SECTION, &["4 0 0 1000 1000 2000 6000 0 0"]),
    (
        GROUP,
        &[
            "4 0 0 1000 1000 2000 6000 2 0 100 24000 2 100 24000 0",
            "4 0 0 1000 1000 2000 6000 3 0 100 100 1 100 100 1 100 0 0",
        ],
    ),
    (
        SOLID,
        &[
            // 1 mm² above, bare
            "4 0 0 1000 1000 2000 6000 2 0 100 120000 0 1 1 0",
            "3 0 0 1000 1000 2000 6000 2 1 100 119999 1 101 1 0",
            "4 0 0 1000 1000 100 100 2 0 100 100 1 1 1 0",
            "4 0 0 1000 1000 15000 10000 2 0 1 1 0 1000 150000 0",
            // 1 mm² above, iced
            "4 0 1 1000 1000 2000 6000 2 0 80 119999 0 81 1 0",
            "3 0 5 1000 1000 2000 6000 2 1 100 59999 1 101 1 0",
            "4 0 5 1000 1000 100 100 2 0 100 49 0 101 1 0",
        ],
    ),
    (
        LEFT_OVER,
        &[
            "4 0 0 1000 1000 2000 6000 1 0 100 24000 0 0",
            "4 0 0 1000 1000 2000 6000 1 0 100 24000 0 100 24000 0",
            "4 0 0 1000 1000 2000 6000 1 0 100 24000 0 0 300 2000 1200 1200 800",
            "4 0 0 1000 1000 2000 6000 1 0 100 24000 1 0 300 2000 1200 1200 800 0",
        ],
    ),
    (
        ITEM,
        &[
            "4 0 0 1000 1000 2000 6000 1 0 100 24000 1 31 0 2000 1200 1200 800",
            "4 0 0 1000 1000 2000 6000 1 0 100 24000 2 0 1 1 0 0 0 0 1 1 0 0 1001",
        ],
    ),
];

/// Messages, each with lines that also break a later rule.
const TWO_RULES: &[(&str, &[&str])] = &[
    (
        FORM,
        &[
            "4 0 x 10000000000000000000",
            "4 0 0 x",
            "2 24 6 499 5001 99 98 x",
        ],
    ),
    (
        TOO_LARGE,
        &[
            "10000000000000000000",
            "10000000000000000000x",
            "2 24 10000000000000000000 x",
        ],
    ),
    (
        MISSING,
        &[
            "2 24 6 499 5001 99 98",
            "4 0 0 1000 1000 2000 6000 2 2 100 24000 0",
            "4 0 0 1000 1000 2000 6000 2 0 1000 200000 65",
            "4 0 0 1000 1000 2000 6000 1 0 100 24000 1 32 300 2000 1200 1200",
            "4 0 0 1000 1000 2000 6000 1 0 100 24000 2 0 0 2000 1200 1200 800",
        ],
    ),
    (
        LEGS,
        &["2 24 6 499 5001 99 98 0", "5 0 0 1000 1000 2000 6000 1"],
    ),
    (
        DIRECTION,
        &[
            "4 24 6 499 5001 99 98 0",
            "3 1 6 1000 1000 2000 6000 1 0 100 24000 0",
        ],
    ),
    (ICE, &["4 0 6 499 5001 99 98 0"]),
    (FACTOR, &["4 0 0 499 5001 99 98 0"]),
    (PRESSURE, &["4 0 0 1000 5001 99 98 0"]),
    (
        SECTION,
        &[
            "4 0 0 1000 1000 99 6000 2 0 100 24000",
            "4 0 0 1000 1000 2000 6000 9 2 100 24000 0",
        ],
    ),
    (
        GROUP,
        &[
            "4 0 0 1000 1000 2000 6000 2 0 1000 200000 2 100 24000 0",
            "4 0 0 1000 1000 2000 6000 1 2 100 24000",
        ],
    ),
    (
        SOLID,
        &[
            "4 0 0 1000 1000 2000 6000 1 0 1000 200000",
            "4 0 5 1000 1000 2000 6000 1 0 100 60001 65",
            "4 0 0 1000 1000 2000 6000 1 0 1000 200000 0 0",
        ],
    ),
    (
        ITEMS,
        &[
            "4 0 0 1000 1000 2000 6000 1 0 100 24000 65",
            "4 0 0 1000 1000 2000 6000 1 0 100 24000 65 32 0 0 3001 3001 1001",
        ],
    ),
    (
        LEFT_OVER,
        &["4 0 0 1000 1000 2000 6000 1 0 100 24000 1 32 300 2000 1200 1200 800 0"],
    ),
];

/// Lines that break one rule, but for items that are missing behind a count
/// above 64.
pub fn breaking_one_rule() -> Vec<Refused> {
    let mut lines = flattened(ONE_RULE);
    for (message, place, numbers) in RANGES {
        for number in *numbers {
            let mut changed = SAMPLE;
            changed[*place] = *number;
            let words = changed.map(|number| number.to_string());
            lines.push(refused(words.join(" "), message));
        }
    }
    lines.extend(long());
    lines
}

/// Lines that break one rule and a later one.
pub fn breaking_two_rules() -> Vec<Refused> {
    let mut lines = flattened(TWO_RULES);
    let zeros = |count: usize| vec!["0"; count].join(" ");
    lines.extend([
        refused(format!("x {}", zeros(417)), FORM),
        refused(format!("{} ", zeros(417)), FORM),
        refused(format!("{} 10000000000000000000 0", zeros(416)), TOO_LARGE),
        refused(zeros(418), TOO_MANY),
        refused(format!("{} x", zeros(418)), TOO_MANY),
        refused(format!("{} 10000000000000000000", zeros(418)), TOO_MANY),
        refused(zeros(417), LEGS),
    ]);
    lines
}

fn flattened(table: &[(&'static str, &[&str])]) -> Vec<Refused> {
    let rows = table.iter().flat_map(|(message, lines)| {
        let row = lines.iter().map(|line| refused(line.to_string(), message));
        row.collect::<Vec<Refused>>()
    });
    rows.collect()
}

/// Lines with as many groups or items as a line can have, or one more.
fn long() -> Vec<Refused> {
    let section = "4 0 0 1000 1000 2000 6000";
    let one = format!("{section} 1 0 100 24000");
    let groups = |count: usize| format!("{section} 8{}", " 0 100 100".repeat(count));
    let items = |count: usize| " 0 1 1 0 0 0".repeat(count);
    vec![
        refused(format!("{} 64{} 0", groups(8), items(64)), TOO_MANY),
        refused(groups(7), MISSING),
        refused(format!("{one} 64{}", items(63)), MISSING),
        refused(format!("{one} 64{} 0 1 1 0 0", items(63)), MISSING),
        refused(format!("{section} 9{} 0", " 0 100 100".repeat(9)), SECTION),
        refused(format!("{} 0 1001 1 0", groups(7)), GROUP),
        refused(
            format!("{section} 8{} 0", " 0 1000 200000".repeat(8)),
            SOLID,
        ),
        refused(format!("{one} 65{}", items(65)), ITEMS),
        refused(format!("{one} 64{} 0", items(64)), LEFT_OVER),
        refused(format!("{one} 64{} 32 1 1 0 0 0", items(63)), ITEM),
        refused(format!("{one} 64{} 0 1 1 0 0 1001", items(63)), ITEM),
    ]
}
