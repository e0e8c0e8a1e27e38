//! Tests of the requests, the pipe and its table. `cat` stands for a service that
//! answers each request with itself.

use crate::calls::TimedTower;
use crate::pipe::with_service;
use crate::rates::{head, line, Long, Rate};
use crate::requests::{
    erect, hang, hangings, report_answer, reports, take_down, wind, Exchange, REPORT,
};
use reference::file::write;
use reference::sample::{flat, item, sample, sample_wind};
use reference::tower::Legs;
use std::time::Duration;

#[test]
fn requests_and_answers_are_lines_of_text() {
    let tower = sample(Legs::Four, &[flat(100, 24_000)]);
    let file = "040107d01770000000000100006400005dc000";
    assert_eq!(erect(&write(&tower)), format!("erect {file}\n"));
    assert_eq!(wind(&sample_wind(&tower, 3, 1)), "wind 3 1 1000 1000\n");
    assert_eq!(hang(&item(7)), "hang 7 0 300 2000 1200 1200 800\n");
    assert_eq!(take_down(7), "takedown 7\n");
    let numbers: Vec<u64> = (1..=12).collect();
    let answer = "ok 2\n1 2 3 4 5 6\n7 8 9 10 11 12\n";
    assert_eq!(report_answer(&numbers), answer);
}

/// Document 01's first sample.
#[test]
fn the_report_of_a_tower_is_expected_of_the_service() {
    let tower = sample(Legs::Four, &[flat(100, 24_000)]);
    let wind = sample_wind(&tower, 0, 0);
    let exchange = reports(&TimedTower::new("sample", tower, wind), 2);
    let answer = "ok 1\n2400000 0 0 7033 7033 21099000\n";
    assert_eq!(exchange.requests, REPORT.repeat(2));
    assert_eq!(exchange.answers, answer.repeat(2));
    assert_eq!(exchange.count, 2);
}

#[test]
fn dishes_are_hung_and_taken_down_by_turns() {
    let exchange = hangings(12);
    assert_eq!(exchange.count, 2_000);
    assert_eq!(exchange.answers, "ok\n".repeat(2_000));
    let lines: Vec<&str> = exchange.requests.lines().collect();
    assert_eq!(lines.len(), 2_000);
    assert_eq!(lines[0], "hang 0 0 1200 1200 1200 1500 900");
    assert_eq!(lines[1], "takedown 0");
    assert_eq!(lines[26], "hang 13 1 1200 1200 1200 1500 900");
    assert_eq!(lines[1_999], "takedown 999");
}

/// Requests and their echo; sent twice, they are more than a pipe holds.
fn echoed() -> Exchange {
    let exchange = hangings(32);
    Exchange {
        answers: exchange.requests.clone(),
        ..exchange
    }
}

#[test]
fn a_service_is_asked_and_sent_streams() {
    let elapsed = with_service("cat", |piped| {
        piped.ask("a\n", "a\n")?;
        let elapsed = piped.stream(&echoed(), 50)?;
        piped.ask("b\n", "b\n")?;
        Ok(elapsed)
    });
    assert!(elapsed.is_ok_and(|elapsed| elapsed > Duration::ZERO));
}

#[test]
fn an_answer_that_differs_is_told() {
    let told = |wrong: Result<(), String>| wrong.expect_err("a difference");
    let one = told(with_service("cat", |piped| piped.ask("a\n", "b\n")));
    assert_eq!(one, r#"cat: an answer differs: "a\n" for "b\n""#);
    let mut exchange = echoed();
    exchange.answers.replace_range(48_000..48_001, "!");
    let streamed = told(with_service("cat", |piped| {
        piped.stream(&exchange, 50).map(|_| ())
    }));
    assert!(streamed.starts_with("cat: an answer differs: "));
    let more = told(with_service("cat", |piped| piped.ask("a\nb\n", "a\n")));
    assert_eq!(more, r#"cat: more answers: "b\n""#);
}

#[test]
fn a_service_that_fails_is_told() {
    let asked = with_service("true", |piped| piped.ask("a\n", "a\n"));
    assert!(asked.is_err());
    let streamed = with_service("true", |piped| piped.stream(&echoed(), 50));
    assert!(streamed.is_err());
    assert!(with_service("false", |_| Ok(())).is_err());
    assert!(with_service("no such program", |_| Ok(())).is_err());
    assert_eq!(with_service("true", |_| Ok(5)), Ok(5));
}

fn rate(seconds: f64) -> Rate {
    Rate {
        requests: 1_000_000,
        seconds,
    }
}

#[test]
fn the_table_has_rates_and_times() {
    let shown = line("report", rate(2.5));
    assert_eq!(shown.len(), head().len());
    let words: Vec<&str> = shown.split_whitespace().collect();
    assert_eq!(words, ["report", "400000", "2.50"]);
    let half = Rate::new(500_000, Duration::from_millis(500));
    assert_eq!((half.a_second(), half.microseconds()), (1e6, 1.0));
}

#[test]
fn the_slowest_and_the_fastest_million_are_named() {
    let long = Long {
        millions: [1.5, 1.75, 1.25, 1.5].map(rate).to_vec(),
        beside_fresh: [[rate(2.0), rate(2.5)], [rate(9.0), rate(9.5)]],
    };
    let seconds = long.named().map(|(_, rate)| rate.seconds);
    assert_eq!(seconds, [1.75, 1.25, 2.0, 2.5, 9.0, 9.5]);
    let width = head().len();
    for (name, rate) in long.named() {
        assert_eq!(line(name, rate).len(), width, "{name}");
    }
}
