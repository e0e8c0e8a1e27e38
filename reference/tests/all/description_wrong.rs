//! What is said of a description that gives no file.

use crate::description::SMALL;
use reference::description::{file_of, Fault, Wrong};
use reference::refusal::Refusal;

/// The message for SMALL with this line in the place of another.
fn message(number: usize, line: &str) -> String {
    let mut lines: Vec<&str> = SMALL.lines().collect();
    lines[number - 1] = line;
    let text = lines.join("\n");
    file_of(text.as_bytes()).expect_err(line).to_string()
}

/// Tests each `NUMBER: LINE = MESSAGE` of a table.
fn assert_messages(table: &str) {
    for case in table.lines() {
        let (number, rest) = case.split_once(": ").expect("a number");
        let (line, wrong) = rest.split_once(" = ").expect("a message");
        let number = number.trim().parse().expect("a number");
        assert_eq!(message(number, line), wrong);
    }
}

#[test]
fn a_line_that_does_not_read() {
    assert_messages(
        "\
1: leg 3 = line 1: a line begins with legs, section, flat, round or item, not 'leg'
1: legs = line 1: a whole number is missing after 'legs'
1: legs three = line 1: a whole number is due after 'legs', not 'three'
1: legs +3 = line 1: a whole number is due after 'legs', not '+3'
1: legs 3 4 = line 1: the line ends after '3', without '4'
2: legs 3 = line 2: the legs are already in line 1
3: section 1 width 1 mm = line 3: section 0 is due here, not section 1
3: section 0 width 1200 = line 3: 'mm' is missing after '1200'
3: section 0 width 1 200 mm = line 3: 'mm' is due after '1', not '200'
3: section 0 width 1.2 m = line 3: a whole number is due after 'width', not '1.2'
3: section 0 height 1 mm = line 3: 'width' is due after '0', not 'height'
3: section 0 width 1200 mm height 4000 mm = line 3: 'allowance' is missing after 'mm'
4: round 76 mm = line 4: 'length' is missing after 'mm'
4: round -76 mm length 1 mm = line 4: a whole number is due after 'round', not '-76'
4: flat 76 mm length 1 m = line 4: 'mm' is due after '1', not 'm'
4: angle 76 mm = line 4: a line begins with legs, section, flat, round or item, not 'angle'
10: item 65536 section 0 = line 10: the item number is above 65535, the largest of its field
11: flat 1 mm length 1 mm = line 11: a group stands below its section and above the items
11: section 2 width 100 mm = line 11: the sections come before the items",
    );
}

#[test]
fn an_allowance_that_does_not_read() {
    for (allowance, wrong) in [
        ("", "a whole number or 'none' is missing after 'allowance'"),
        ("9 kN", "'N' is due after '9', not 'kN'"),
        ("9", "'N' is missing after '9'"),
        ("none N", "the line ends after 'none', without 'N'"),
        ("0 N", "an allowance that is not stated is 'none', not 0 N"),
    ] {
        let sizes = "section 0 width 1200 mm height 4000 mm allowance";
        let found = message(3, &format!("{sizes} {allowance}"));
        assert_eq!(found, format!("line 3: {wrong}"));
    }
    assert_messages(
        "\
3: section 0 width 1 mm height 1 mm allowance nil = line 3: a whole number or 'none' is due after 'allowance', not 'nil'
3: section 0 width 1 mm height 1 mm allowance 4294967296 N = line 3: the allowance is above 4294967295, the largest of its field",
    );
}

#[test]
fn a_decimal_number_that_does_not_read() {
    for bare in ["1.2345", "1.", ".5", "1,2", "1.2.3", "-1", "1e3", "1.+1"] {
        let line = format!("item 101 section 0 width 300 mm length 2000 mm bare {bare}");
        let due = "a number with up to three decimals is due after 'bare'";
        assert_eq!(message(10, &line), format!("line 10: {due}, not '{bare}'"));
    }
}

#[test]
fn a_word_is_shown_cut_and_without_control_characters() {
    let (word, shown) = ("x".repeat(1_000), "x".repeat(40));
    assert!(message(2, &word).ends_with(&format!(", not '{shown}...'")));
    assert!(message(2, "\u{1b}[2J").ends_with(", not '\\u{1b}[2J'"));
}

#[test]
fn the_legs_come_first() {
    let none = "line 1: the description has no 'legs' line";
    let line = |text: &[u8]| file_of(text).expect_err("no legs").to_string();
    assert_eq!(line(b""), none);
    assert_eq!(line(b"# legs 3\n\n"), none);
    assert_eq!(line(b"\nsection 0"), "line 2: the 'legs' line comes first");
    assert_eq!(line(b"item 0"), "line 1: the 'legs' line comes first");
    assert_eq!(line(b"legs 3\n\xff"), "line 2: it is not text in UTF-8");
}

#[test]
fn a_refusal_has_its_line_number_and_meaning() {
    assert_messages(
        "\
1: legs 5 = line 1: refused 3: Legs are neither 3 nor 4.
1: legs 259 = line 1: refused 3: Legs are neither 3 nor 4.
3: section 0 width 1200 mm height 4001 mm allowance none = line 3: refused 5: A section's width or height breaks its range, or the height is odd.
5: round 0 mm length 1 mm = line 5: refused 7: A group's kind, width or length breaks its range.
8:  = line 7: refused 6: Group count is 0 or above 8.
8: flat 1000 mm length 143001 mm = line 8: refused 8: After a section's last group its bare A_S is above A_u.
11: item 101 section 0 width 1 mm length 1 mm bare 0 iced 0 K 0 = line 11: refused 10: The item number is already held, or came earlier in the same file.
11: item 7 section 2 width 1 mm length 1 mm bare 0 iced 0 K 0 = line 11: refused 11: The item's section does not exist.
11: item 7 section 1 width 1 mm length 1 mm bare 0 iced 0 K 1.001 = line 11: refused 12: Another item field breaks its range.",
    );
    let none = file_of(b"\nlegs 4\n").expect_err("no section").to_string();
    assert_eq!(none, "line 2: refused 4: Section count is 0 or above 32.");
}

/// Tests the refusal for a line of SMALL whose word X is each of these numbers,
/// none of which fits its bytes.
fn assert_beyond(number: usize, line: &str, refusal: Refusal) {
    for beyond in [
        "4294967297",
        "4295032833",
        "18446744073709551617",
        "99999999999999999999999",
    ] {
        let start = format!("line {number}: refused {}: ", refusal.number());
        let found = message(number, &line.replace('X', beyond));
        assert!(found.starts_with(&start), "{line}: {found}");
    }
}

/// It must not come round to one in range.
#[test]
fn a_number_beyond_its_bytes_gets_the_refusal_of_its_field() {
    for line in [
        "section 0 width X mm height 4000 mm allowance none",
        "section 0 width 1200 mm height X mm allowance none",
    ] {
        assert_beyond(3, line, Refusal::SectionSize);
    }
    assert_beyond(4, "round X mm length 1 mm", Refusal::GroupField);
    assert_beyond(4, "round 1 mm length X mm", Refusal::GroupField);
    let item = "item 1 section X width 1 mm length 1 mm bare 1 iced 1 K 1";
    assert_beyond(10, item, Refusal::ItemSection);
    let item = item.replace('X', "0");
    for field in ["width", "length", "bare", "iced", "K"] {
        let line = item.replace(&format!("{field} 1"), &format!("{field} X"));
        assert_beyond(10, &line, Refusal::ItemField);
    }
}

#[test]
fn a_count_beyond_its_byte_gets_the_refusal_of_the_count() {
    let top = "section 0 width 1200 mm height 4000 mm allowance none\n";
    let group = "flat 1 mm length 1 mm\n";
    let item = "item 0 section 0 width 1 mm length 1 mm bare 0 iced 0 K 0\n";
    let numbered = |number| top.replace("section 0", &format!("section {number}"));
    let sections: String = (0..257).map(|n| numbered(n) + group).collect();
    let (groups, items) = (group.repeat(257), item.repeat(257));
    for (text, line, refusal) in [
        (format!("legs 3\n{sections}"), 514, Refusal::SectionCount),
        (format!("legs 3\n{top}{groups}"), 259, Refusal::GroupCount),
        (
            format!("legs 3\n{top}{group}{items}"),
            260,
            Refusal::ItemCount,
        ),
    ] {
        let fault = Fault::Refused(refusal);
        assert_eq!(file_of(text.as_bytes()), Err(Wrong { line, fault }));
    }
}
