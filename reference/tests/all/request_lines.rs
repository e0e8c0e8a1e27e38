//! What a line means: the lines for `towerd` read a second time, any bytes, and
//! the boundaries of the request language.

use crate::common::{flat, item, sample};
use crate::request_lists::lists;
use crate::second_parser::{second_numbers, second_parse};
use reference::draw::Random;
use reference::requests::{parse, read_numbers, Fault, Request};
use reference::tower::{Legs, Wind};
use std::collections::BTreeMap;

#[test]
fn every_line_means_what_it_was_made_for() {
    for line in lists().iter().flat_map(|list| &list.lines) {
        let shown = String::from_utf8_lossy(&line.text);
        assert_eq!(parse(&line.text), line.meaning, "{shown}");
        assert_eq!(second_parse(&line.text), line.meaning, "{shown}");
    }
}

#[test]
fn a_request_is_read_back_from_its_text() {
    let requests = [
        Request::Erect(Vec::new()),
        Request::Erect((0..=255).collect()),
        Request::Hang(item(7)),
        Request::TakeDown(65_535),
        Request::Wind(Wind {
            direction: 23,
            ice_class: 5,
            structure_factor: 2_000,
            pressures: vec![0, 5_000, 65_535],
        }),
        Request::Report(None),
        Request::Report(Some(0)),
        Request::Check,
        Request::Write(None),
        Request::Write(Some(9_999_999_999_999_999_999)),
        Request::Help,
    ];
    for request in requests {
        assert_eq!(parse(request.text().as_bytes()), Ok(request));
    }
}

/// What stands in the documents, to the letter.
#[test]
fn the_plain_spellings() {
    let file = reference::file::write(&sample(Legs::Four, &[flat(100, 24_000)]));
    let wind = Wind {
        direction: 1,
        ice_class: 2,
        structure_factor: 1_000,
        pressures: vec![800, 900],
    };
    let spellings = [
        (
            "erect 040107d01770000000000100006400005dc000",
            Request::Erect(file),
        ),
        ("erect", Request::Erect(Vec::new())),
        ("hang 7 0 300 2000 1200 1200 800", Request::Hang(item(7))),
        ("takedown 7", Request::TakeDown(7)),
        ("wind 1 2 1000 800 900", Request::Wind(wind)),
        ("report", Request::Report(None)),
        ("report 192", Request::Report(Some(192))),
        ("check", Request::Check),
        ("write", Request::Write(None)),
        ("write 3000", Request::Write(Some(3_000))),
        ("help", Request::Help),
    ];
    for (text, request) in spellings {
        assert_eq!(request.text(), text);
        assert_eq!(parse(text.as_bytes()), Ok(request));
    }
}

/// Each parameter at the end of its type, and one more.
#[test]
fn types_of_the_numbers() {
    let right: [(&str, &[u64]); 3] = [
        (
            "hang",
            &[
                65_535,
                255,
                4_294_967_295,
                4_294_967_295,
                65_535,
                65_535,
                65_535,
            ],
        ),
        ("takedown", &[65_535]),
        (
            "wind",
            &[4_294_967_295, 4_294_967_295, 4_294_967_295, 65_535, 65_535],
        ),
    ];
    for (word, numbers) in right {
        let text = |numbers: &[u64]| {
            let words: Vec<String> = numbers.iter().map(u64::to_string).collect();
            format!("{word} {}", words.join(" ")).into_bytes()
        };
        let request = parse(&text(numbers)).expect("a request");
        assert_eq!(request.text().into_bytes(), text(numbers));
        for place in 0..numbers.len() {
            for more in [numbers[place] + 1, 9_999_999_999_999_999_999] {
                let mut numbers = numbers.to_vec();
                numbers[place] = more;
                let line = text(&numbers);
                assert_eq!(parse(&line), Err(Fault::NumberTooLarge), "{numbers:?}");
            }
        }
    }
}

/// Every count of numbers up to ten, with each request.
#[test]
fn counts_of_the_numbers() {
    let words: [(&str, std::ops::RangeInclusive<usize>); 6] = [
        ("hang", 7..=7),
        ("takedown", 1..=1),
        ("wind", 3..=3_003),
        ("report", 0..=1),
        ("check", 0..=0),
        ("help", 0..=0),
    ];
    for (word, counts) in words {
        for count in 0..=10 {
            let line = format!("{word}{}", " 1".repeat(count));
            let found = parse(line.as_bytes()).err();
            let wanted = if count < *counts.start() {
                Some(Fault::TooFewWords)
            } else if count > *counts.end() {
                Some(Fault::TooManyWords)
            } else {
                None
            };
            assert_eq!(found, wanted, "{line}");
        }
    }
}

#[test]
fn the_longest_line_has_6006_bytes() {
    let long = |start: &str, fill: &str, end: &str, length: usize| {
        let count = (length - start.len() - end.len()) / fill.len();
        let line = format!("{start}{}{end}", fill.repeat(count));
        assert_eq!(line.len(), length);
        parse(line.as_bytes())
    };
    let too_long = Err(Fault::LineTooLong);
    let file = Ok(Request::Erect(vec![255; 3_000]));
    assert_eq!(long("erect ", "ff", "", 6_006), file);
    assert_eq!(long("erect ", "f", "", 6_007), too_long);
    assert_eq!(long("erect ", "f", "", 6_005), Err(Fault::NotHexadecimal));
    assert_eq!(long("takedown ", "0", "7", 6_006), Ok(Request::TakeDown(7)));
    assert_eq!(long("takedown ", "0", "7", 6_007), too_long);
    assert_eq!(long("x", "x", "", 6_006), Err(Fault::UnknownRequest));
    assert_eq!(long("x", "x", "", 6_007), too_long);
    assert_eq!(long("check ", "x", "", 6_007), too_long);
    let Ok(Request::Wind(wind)) = long("wind 0 0 0", " 0", "", 6_006) else {
        panic!("a wind");
    };
    assert_eq!(wind.pressures, [0; 2_998]);
    assert_eq!(long("wind 0 0 00", " 0", "", 6_007), too_long);
    for length in [6_008, 12_012, 12_013, 65_536, 70_000, 200_000] {
        assert_eq!(long("check", "k", "", length), too_long);
        assert_eq!(long("", "\0", "", length), too_long);
    }
}

/// What a line of 6 006 bytes cannot reach, too.
#[test]
fn at_most_3003_numbers() {
    let numbers = |count: usize| vec!["1"; count].join(" ").into_bytes();
    for read in [read_numbers, second_numbers] {
        assert_eq!(read(&numbers(3_003)), Ok(vec![1; 3_003]));
        let many = Err(Fault::TooManyWords);
        assert_eq!(read(&numbers(3_004)), many);
        let behind = |end: &[u8]| read(&[&numbers(3_003), end].concat());
        assert_eq!(behind(b" 1x"), many);
        assert_eq!(behind(b" 99999999999999999999"), many);
        assert_eq!(behind(b" x"), Err(Fault::NotDecimal));
        assert_eq!(behind(b" "), Err(Fault::NotDecimal));
        assert_eq!(behind(b"  1"), Err(Fault::NotDecimal));
        let ahead = |start: &[u8]| read(&[start, &numbers(3_004)].concat());
        assert_eq!(ahead(b"x "), Err(Fault::NotDecimal));
        let large = Err(Fault::NumberTooLarge);
        assert_eq!(ahead(b"10000000000000000000 "), large);
    }
}

#[test]
fn numbers_are_below_ten_to_the_19th() {
    let large = Err(Fault::NumberTooLarge);
    let most = 9_999_999_999_999_999_999;
    let zeros = "0".repeat(50);
    for read in [read_numbers, second_numbers] {
        assert_eq!(read(b"9999999999999999999"), Ok(vec![most]));
        assert_eq!(read(b"10000000000000000000"), large);
        assert_eq!(read(b"18446744073709551615"), large);
        assert_eq!(read(b"18446744073709551616"), large);
        assert_eq!(read(b"99999999999999999999999999999999999999999999"), large);
        assert_eq!(read(format!("{zeros}{most}").as_bytes()), Ok(vec![most]));
        assert_eq!(read(format!("{zeros}{most}0").as_bytes()), large);
        assert_eq!(read(b"0 00 1 01"), Ok(vec![0, 0, 1, 1]));
        assert_eq!(read(b"99999999999999999999 x"), large);
        assert_eq!(read(b"x 99999999999999999999"), Err(Fault::NotDecimal));
        assert_eq!(read(b"9999999999999999999x9"), Err(Fault::NotDecimal));
    }
}

#[test]
fn only_digits_and_single_spaces_are_numbers() {
    for byte in 0..=255_u8 {
        let right = byte.is_ascii_digit();
        assert_eq!(read_numbers(&[byte]).is_ok(), right, "{byte}");
        assert_eq!(read_numbers(&[b'1', byte]).is_ok(), right, "{byte}");
        let between = read_numbers(&[b'1', byte, b'1']);
        assert_eq!(between.is_ok(), right || byte == b' ', "{byte}");
    }
    for text in ["", " ", "1 ", " 1", "1  1", "-1", "+1", "1\t1", "1\r"] {
        assert_eq!(read_numbers(text.as_bytes()), Err(Fault::NotDecimal));
    }
}

#[test]
fn only_hexadecimal_digits_are_a_file() {
    for byte in 0..=255_u8 {
        let value = char::from(byte).to_digit(16);
        let file = parse(&[b"erect 1", &[byte][..]].concat());
        match value {
            Some(value) => assert_eq!(file, Ok(Request::Erect(vec![16 + value as u8]))),
            None => assert_eq!(file, Err(Fault::NotHexadecimal)),
        }
    }
}

/// The line's length, its word, its text, its count, its types.
#[test]
fn the_first_fault_counts() {
    let cases: [(&[u8], Fault); 12] = [
        (b"chek x", Fault::UnknownRequest),
        (b"chek 99999999999999999999", Fault::UnknownRequest),
        (b"check x", Fault::NotDecimal),
        (b"check 99999999999999999999", Fault::NumberTooLarge),
        (b"check 99999999999999999999x", Fault::NumberTooLarge),
        (b"check 1", Fault::TooManyWords),
        (b"hang 65536 x", Fault::NotDecimal),
        (b"hang 65536 99999999999999999999", Fault::NumberTooLarge),
        (b"hang 65536", Fault::TooFewWords),
        (b"takedown 65536 65536", Fault::TooManyWords),
        (b"takedown 65536", Fault::NumberTooLarge),
        (b"erect 0g0", Fault::NotHexadecimal),
    ];
    for (line, fault) in cases {
        assert_eq!(parse(line), Err(fault), "{}", String::from_utf8_lossy(line));
    }
}

/// Bytes that requests have, and some beside them.
const BYTES: &[u8] = b"   0123456789abcdefxgh\t\r\0-+/:@`G\x7f\x80\xff";

/// The words of requests, and some beside them.
const WORDS: [&[u8]; 10] = [
    b"erect",
    b"hang",
    b"takedown",
    b"wind",
    b"report",
    b"check",
    b"write",
    b"help",
    b"",
    b"chec",
];

/// Numbers at the ends of types.
const NUMBERS: [&[u8]; 10] = [
    b"0",
    b"255",
    b"256",
    b"65535",
    b"65536",
    b"4294967295",
    b"4294967296",
    b"9999999999999999999",
    b"10000000000000000000",
    b"007",
];

/// A word and numbers, with some bytes changed.
fn any_line(random: &mut Random) -> Vec<u8> {
    let mut line = random.pick(&WORDS).to_vec();
    for _ in 0..random.pick(&[0, 0, 1, 1, 2, 3, 4, 7, 7, 8]) {
        line.push(b' ');
        let few = random.pick(&[10, 3]);
        line.extend(NUMBERS[random.within(0, few - 1) as usize]);
    }
    for _ in 0..random.pick(&[0, 0, 0, 1, 2]) {
        let place = random.within(0, line.len() as u32) as usize;
        line.insert(place, random.pick(BYTES));
    }
    line
}

#[test]
fn drawn_lines_are_read_alike_twice() {
    let mut random = Random(0x5eed_0601);
    let mut counts: BTreeMap<Option<Fault>, usize> = BTreeMap::new();
    for _ in 0..100_000 {
        let line = any_line(&mut random);
        let found = parse(&line);
        assert_eq!(found, second_parse(&line), "{}", line.escape_ascii());
        *counts.entry(found.err()).or_default() += 1;
    }
    // six faults in short lines, and requests
    assert_eq!(counts.len(), 7, "{counts:?}");
    assert!(counts.values().all(|count| *count >= 500), "{counts:?}");
}

#[test]
fn lines_of_any_bytes_are_read_alike_twice() {
    let mut random = Random(0x5eed_0602);
    for place in 0..20_000 {
        let most = if place % 100 == 0 { 6_100 } else { 12 };
        let length = random.within(0, most);
        let mut line = random.pick(&WORDS).to_vec();
        line.extend((0..length).map(|_| random.within(0, 255) as u8));
        assert_eq!(parse(&line), second_parse(&line), "{}", line.escape_ascii());
    }
}
