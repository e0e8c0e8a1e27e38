//! The answers of the request language, and whole inputs.

use crate::common::{flat, sample};
use reference::draw::Random;
use reference::file;
use reference::refusal::Refusal;
use reference::requests::{lines, parse, session, Program, Request, HELP};
use reference::service::Service;
use reference::tower::Legs;

/// The first sample's file.
const FIRST: &str = "040107d01770000000000100006400005dc000";

/// The answers to these lines on a fresh service, each line with its newline.
fn answers(lines: &[&str]) -> String {
    let input: String = lines.iter().map(|line| format!("{line}\n")).collect();
    String::from_utf8(session(input.as_bytes())).expect("text")
}

/// What a request is answered, worked out on the service itself.
pub fn second_answer(service: &mut Service, request: &Request) -> String {
    let lent = |room: &Option<u64>, own: u64| room.unwrap_or(own).min(own) as usize;
    let answer: Result<String, Refusal> = match request {
        Request::Help => return HELP.to_string(),
        Request::Erect(file) => service.erect(file).map(|()| String::new()),
        Request::Hang(item) => service.hang(*item).map(|()| String::new()),
        Request::TakeDown(number) => service.take_down(*number).map(|()| String::new()),
        Request::Wind(wind) => crate::common::set_wind(service, wind).map(|()| String::new()),
        Request::Report(room) => {
            let mut numbers = vec![u64::MAX; lent(room, 192)];
            let reported = service.report(&mut numbers);
            reported.map(|()| rows(service, &numbers))
        }
        Request::Check => service.check().map(|over| match over {
            Some(section) => format!(" {section}"),
            None => " none".to_string(),
        }),
        Request::Write(room) => {
            let written = service.write(&mut vec![0; lent(room, 3_000)]);
            let bytes = service.tower().map(file::write).unwrap_or_default();
            let digits: String = bytes.iter().map(|byte| format!("{byte:02x}")).collect();
            written.map(|length| {
                assert_eq!(length, bytes.len());
                format!(" {digits}")
            })
        }
    };
    match answer {
        Ok(text) => format!("ok{text}\n"),
        Err(refusal) => format!("refused {}\n", refusal.number()),
    }
}

/// The count of sections, and six numbers of each.
fn rows(service: &Service, numbers: &[u64]) -> String {
    let sections = service.tower().expect("a tower").sections.len();
    let mut text = format!(" {sections}");
    for (place, number) in numbers[..6 * sections].iter().enumerate() {
        let apart = if place % 6 == 0 { "\n" } else { " " };
        text += &format!("{apart}{number}");
    }
    text
}

#[test]
fn the_answers_to_each_request() {
    let erect = format!("erect {FIRST}");
    let lines = [
        "report",
        &erect,
        "report",
        "wind 0 0 1000 1000",
        "report",
        "hang 7 0 300 2000 1200 1200 800",
        "report 6",
        "report 5",
        "check",
        "write 31",
        "write 32",
        "takedown 7",
        "takedown 7",
        "write",
        "report 9999999999999999999",
    ];
    let with_item = "040107d01770000000000100006400005dc001000700012c07d004b004b00320";
    let wanted = format!(
        "refused 1\nok\nrefused 21\nok\nok 1\n2400000 0 0 7033 7033 21099000\n\
         ok\nok 1\n2400000 0 0 7609 7609 22827000\nrefused 22\nok none\n\
         refused 22\nok {with_item}\nok\nrefused 14\nok {FIRST}\n\
         ok 1\n2400000 0 0 7033 7033 21099000\n"
    );
    assert_eq!(answers(&lines), wanted);
}

#[test]
fn each_fault_is_answered_by_one_line() {
    let long = "x".repeat(6_007);
    let lines = [
        &long,
        "",
        "x",
        "erect 0",
        "check x",
        "report 10000000000000000000",
        "takedown",
        "check 1",
        "takedown 65536",
    ];
    let wanted = "error line too long\n\
                  error unknown request, try help\n\
                  error unknown request, try help\n\
                  error not hexadecimal\n\
                  error not a decimal number\n\
                  error number too large\n\
                  error too few words\n\
                  error too many words\n\
                  error number too large\n";
    assert_eq!(answers(&lines), wanted);
}

#[test]
fn a_section_over_its_allowance_is_answered_by_its_number() {
    let mut tower = sample(Legs::Four, &[flat(100, 24_000)]);
    tower.sections.push(tower.sections[0].clone());
    tower.sections[1].allowance = Some(reference::units::Force(14_065));
    let erect = Request::Erect(file::write(&tower)).text();
    let found = answers(&[&erect, "wind 0 0 1000 1000 1000", "check"]);
    assert_eq!(found, "ok\nok\nok 1\n");
}

/// 32 sections fill 192 numbers, which is all that the program has.
#[test]
fn room_beyond_the_own_is_the_own() {
    let tower = reference::file_cases::largest();
    let mut program = Program::default();
    program.answer_request(&Request::Erect(file::write(&tower)));
    let wind = reference::sample::sample_wind(&tower, 0, 0);
    assert_eq!(program.answer_request(&Request::Wind(wind)), "ok\n");
    let report = program.answer(b"report");
    assert!(report.starts_with("ok 32\n"));
    assert_eq!(report.lines().count(), 33);
    let write = program.answer(b"write");
    assert_eq!(write.len(), 2 * 2_915 + 4);
    for room in ["192", "193", "65536", "4294967296", "9999999999999999999"] {
        assert_eq!(program.answer(format!("report {room}").as_bytes()), report);
    }
    for room in ["2915", "3000", "3001", "65536", "9999999999999999999"] {
        assert_eq!(program.answer(format!("write {room}").as_bytes()), write);
    }
    for line in ["report 191", "report 0", "write 2914", "write 0"] {
        assert_eq!(program.answer(line.as_bytes()), "refused 22\n");
    }
}

#[test]
fn lines_end_in_newlines_but_the_last() {
    let cases: [(&[u8], &[&[u8]]); 8] = [
        (b"", &[]),
        (b"\n", &[b""]),
        (b"\n\n", &[b"", b""]),
        (b"a", &[b"a"]),
        (b"a\n", &[b"a"]),
        (b"a\nb", &[b"a", b"b"]),
        (b"a\n\nb\r\n", &[b"a", b"", b"b\r"]),
        (b"\0\n\xff", &[b"\0", b"\xff"]),
    ];
    for (input, wanted) in cases {
        assert_eq!(lines(input), wanted, "{}", input.escape_ascii());
    }
    assert_eq!(session(b""), b"");
    assert_eq!(session(b"check"), b"refused 1\n");
    assert_eq!(session(b"check\n"), b"refused 1\n");
    assert_eq!(session(&[b'x'; 200_000]), b"error line too long\n");
}

#[test]
fn help_says_every_request_and_fits_a_terminal() {
    let text = String::from_utf8(session(b"help\n")).expect("text");
    assert_eq!(text, HELP);
    assert!(text.is_ascii() && text.ends_with('\n'));
    assert!(text.len() <= 1_500, "{}", text.len());
    let lines: Vec<&str> = text.lines().collect();
    assert!((10..=17).contains(&lines.len()));
    assert!(lines.iter().all(|line| line.len() <= 100));
    let printed = |byte: u8| byte == b'\n' || (b' '..=b'~').contains(&byte);
    assert!(text.bytes().all(printed));
    for word in [
        "  erect HEX ",
        "  hang NUMBER SECTION WIDTH LENGTH BARE ICED K\n",
        "  takedown NUMBER ",
        "  wind K ICE FACTOR P0 P1 ..\n",
        "  report [ROOM] ",
        "  check ",
        "  write [ROOM] ",
        "  help ",
        "\nrefused N",
        "\nerror",
    ] {
        assert!(text.contains(word), "{word}");
    }
}

/// Any input is answered, line by line, and nothing but requests changes the
/// service.
#[test]
fn inputs_of_any_bytes_are_answered() {
    let mut random = Random(0x5eed_0603);
    for _ in 0..300 {
        let length = random.within(0, 3_000);
        let byte = |random: &mut Random| match random.within(0, 9) {
            0 => b'\n',
            1 => b' ',
            _ => random.within(0, 255) as u8,
        };
        let input: Vec<u8> = (0..length).map(|_| byte(&mut random)).collect();
        let found = String::from_utf8(session(&input)).expect("text");
        let requests = lines(&input)
            .iter()
            .filter(|line| parse(line).is_ok())
            .count();
        assert_eq!(requests, 0);
        assert_eq!(found.lines().count(), lines(&input).len());
        assert!(found.lines().all(|line| line.starts_with("error ")));
    }
}
