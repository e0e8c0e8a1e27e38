//! The lines for `file_cases`, read back from their text byte by byte, and the
//! lines that are no case.

use reference::file::read;
use reference::file_cases::messages::{BYTE, COUNT, FORM, NOT_A_CASE, RANGE, TOO_LARGE, TOO_MANY};
use reference::file_cases::{digest, files, parts, Case, Line, Meaning};
use std::collections::{BTreeMap, BTreeSet};
use std::sync::OnceLock;

/// `stdin` and `stdout`.
pub fn texts() -> &'static [String; 2] {
    static TEXTS: OnceLock<[String; 2]> = OnceLock::new();
    TEXTS.get_or_init(|| {
        let files = files();
        let names: Vec<&str> = files.iter().map(|file| file.name).collect();
        assert_eq!(names, ["stdin", "stdout"]);
        let text = |bytes| String::from_utf8(bytes).expect("text");
        let texts: Vec<String> = files.into_iter().map(|file| text(file.bytes)).collect();
        texts.try_into().expect("two files")
    })
}

/// The lines of a text that ends in a newline, a carriage return included.
pub fn lines(text: &str) -> Vec<&str> {
    text.strip_suffix('\n')
        .expect("a last line")
        .split('\n')
        .collect()
}

/// The numbers of a line, with what is wrong with them first.
fn numbers(text: &str) -> Result<Vec<u64>, &'static str> {
    let (mut numbers, mut inside) = (Vec::new(), None);
    for byte in text.bytes() {
        match (byte, inside) {
            (b'0'..=b'9', None) if numbers.len() == 4_000 => return Err(TOO_MANY),
            (b'0'..=b'9', _) => {
                let number = 10 * inside.unwrap_or(0) + u128::from(byte - b'0');
                if number >= 10_u128.pow(19) {
                    return Err(TOO_LARGE);
                }
                inside = Some(number);
            }
            (b' ', Some(number)) => {
                numbers.push(number as u64);
                inside = None;
            }
            _ => return Err(FORM),
        }
    }
    numbers.push(inside.ok_or(FORM)? as u64);
    Ok(numbers)
}

/// What a line's text says over a base file, or what is wrong with it first. A
/// letter alone has no numbers.
fn parse(text: &str, base: &[u8]) -> Result<Case, &'static str> {
    let (letter, rest) = text.split_at_checked(1).ok_or(NOT_A_CASE)?;
    if !["f", "c", "s", "a", "r"].contains(&letter) {
        return Err(NOT_A_CASE);
    }
    let numbers = match rest.strip_prefix(' ') {
        Some(rest) => numbers(rest)?,
        None if rest.is_empty() => Vec::new(),
        None => return Err(NOT_A_CASE),
    };
    match (letter, &numbers[..]) {
        ("f", _) => Ok(Case::File(bytes(&numbers)?)),
        ("a", [_, ..]) => {
            let added = bytes(&numbers)?;
            let fits = base.len() + added.len() <= 4_000;
            fits.then_some(Case::Add(added)).ok_or(RANGE)
        }
        ("c", [end]) => at_most(*end, base.len()).map(Case::Cut),
        ("r", [room]) => at_most(*room, 4_000).map(Case::Room),
        ("s", [_, ..]) if numbers.len().is_multiple_of(2) => {
            let pairs = numbers.chunks(2).map(|pair| {
                // a place is below the length
                let place = at_most(pair[0].saturating_add(1), base.len())? - 1;
                Ok((place, bytes(&pair[1..])?[0]))
            });
            pairs.collect::<Result<_, _>>().map(Case::Set)
        }
        _ => Err(COUNT),
    }
}

fn bytes(numbers: &[u64]) -> Result<Vec<u8>, &'static str> {
    let byte = |number: &u64| u8::try_from(*number).map_err(|_| BYTE);
    numbers.iter().map(byte).collect()
}

fn at_most(number: u64, most: usize) -> Result<usize, &'static str> {
    let number = usize::try_from(number).map_err(|_| RANGE)?;
    (number <= most).then_some(number).ok_or(RANGE)
}

/// The numbers of an accepted file, as document 01 lays it out.
fn values(file: &[u8]) -> Vec<u64> {
    let mut rest = file.iter();
    let mut values = Vec::new();
    let mut next = |widths: &[usize]| {
        for width in widths {
            let field = rest.by_ref().take(*width);
            values.push(field.fold(0, |high, low| 256 * high + u64::from(*low)));
        }
        values[values.len() - 1]
    };
    for _ in 0..next(&[1, 1]) {
        for _ in 0..next(&[2, 2, 4, 1]) {
            next(&[1, 2, 4]);
        }
    }
    for _ in 0..next(&[1]) {
        next(&[2, 1, 2, 2, 2, 2, 2]);
    }
    assert_eq!(rest.next(), None);
    values
}

/// The digest of a file at the start of so many lent bytes.
fn out(file: &[u8], lent: usize) -> u64 {
    let bytes = file.iter().chain([&165].into_iter().cycle()).take(lent);
    digest(bytes.map(|byte| u64::from(*byte)))
}

/// The answer to a case, with what is read taken from the bytes.
fn answer(case: &Case, base: &[u8]) -> String {
    let file = case.file(base);
    match (read(&file), case) {
        (Err(refusal), _) => format!("refused {}", refusal.number()),
        (Ok(_), Case::Room(room)) if *room < file.len() => {
            format!("refused 22 {}", out(&[], *room))
        }
        (Ok(_), Case::Room(room)) => format!("ok {} {}", file.len(), out(&file, *room)),
        (Ok(_), _) => {
            let all = file.len();
            let tower = digest(values(&file));
            format!("ok {all} {tower} {}", out(&file, all + 5))
        }
    }
}

#[test]
fn every_line_is_answered_as_its_text_says() {
    let [stdin, stdout] = texts();
    let (asked, answered) = (lines(stdin), lines(stdout));
    assert_eq!(asked.len(), answered.len());
    let mut base = Vec::new();
    for (text, found) in asked.into_iter().zip(answered) {
        let wanted = match parse(text, &base) {
            Ok(case) => {
                let wanted = answer(&case, &base);
                if let Case::File(file) = case {
                    base = file;
                }
                wanted
            }
            Err(message) => format!("error: {message}"),
        };
        assert_eq!(found, wanted, "{text}");
    }
}

#[test]
fn every_line_means_what_its_text_says() {
    let mut base = Vec::new();
    for line in parts().into_iter().flat_map(|part| part.lines) {
        let meaning = match parse(&line.text, &base) {
            Ok(case) => Meaning::Case(case),
            Err(message) => Meaning::Error(message),
        };
        assert_eq!(meaning, line.meaning, "{}", line.text);
        if let Meaning::Case(Case::File(file)) = meaning {
            base = file;
        }
    }
}

/// All wrong lines with their messages, and the lines behind them.
fn wrong() -> Vec<(Line, &'static str, Line)> {
    let mut wrong = Vec::new();
    for part in parts() {
        for pair in part.lines.windows(2) {
            if let Meaning::Error(message) = pair[0].meaning {
                wrong.push((pair[0].clone(), message, pair[1].clone()));
            }
        }
    }
    wrong
}

#[test]
fn every_message_is_there_with_every_letter_that_can_have_it() {
    let mut found: BTreeMap<&str, BTreeSet<char>> = BTreeMap::new();
    for (line, message, _) in wrong() {
        let letters = found.entry(message).or_default();
        letters.extend(line.text.chars().next());
    }
    let letters = |letters: &str| letters.chars().collect::<BTreeSet<char>>();
    let of = |message| -> BTreeSet<char> {
        let kinds = letters("fcsar");
        found[message].intersection(&kinds).copied().collect()
    };
    assert_eq!(found.len(), 7);
    assert_eq!(of(NOT_A_CASE), letters("fcsar"));
    assert_eq!(of(FORM), letters("fcsar"));
    assert_eq!(of(TOO_LARGE), letters("fcsar"));
    assert_eq!(of(TOO_MANY), letters("fc"));
    assert_eq!(of(COUNT), letters("csar"));
    assert_eq!(of(BYTE), letters("fsa"));
    assert_eq!(of(RANGE), letters("csar"));
}

/// The order in which the rules are tested, by hand.
#[test]
fn the_first_rule_that_is_broken_counts() {
    let base = [0; 19];
    let zeros = |count: usize| vec!["0"; count].join(" ");
    let large = "10000000000000000000";
    let cases = [
        (format!("fx {large}"), NOT_A_CASE),
        (format!("c x {large}"), FORM),
        ("f 256 ".to_string(), FORM),
        (format!("c {large} x"), TOO_LARGE),
        (format!("f {} {large} 0", zeros(3_999)), TOO_LARGE),
        (format!("f {} {large}", zeros(4_000)), TOO_MANY),
        (format!("f {} x", zeros(4_000)), FORM),
        ("r 4001 0".to_string(), COUNT),
        ("s 0 256 19".to_string(), COUNT),
        (format!("a {} 256", zeros(3_999)), BYTE),
        ("s 0 256 19 0".to_string(), BYTE),
        ("s 19 256".to_string(), RANGE),
        ("s 19 0 0 256".to_string(), RANGE),
    ];
    for (text, message) in cases {
        assert_eq!(parse(&text, &base), Err(message));
    }
    for text in ["f", "a 0", "c 19", "s 18 255", "r 4000"] {
        assert!(parse(text, &base).is_ok(), "{text}");
    }
}

#[test]
fn a_case_behind_each_wrong_line_shows_the_base_file() {
    let wrong = wrong();
    assert!(wrong.len() >= 150, "{}", wrong.len());
    let mut files = 0;
    for (line, _, behind) in &wrong {
        let is_case = matches!(behind.meaning, Meaning::Case(_));
        assert!(is_case && !behind.text.starts_with('f'), "{}", line.text);
        files += usize::from(line.text.starts_with("f "));
    }
    assert!(files >= 30, "{files}");
}
