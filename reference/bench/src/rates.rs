//! Rates of requests through a pipe, and the table of them.

use crate::calls::TimedTower;
use crate::pipe::{with_service, Piped};
use crate::requests::{erect, hang, hangings, reports, take_down, wind, Exchange, OK};
use crate::towers::dish;
use std::time::{Duration, Instant};

/// Requests of each stream of hangings and take-downs, and streams of them.
const MILLION: u64 = 1_000_000;
const STREAMS: u32 = 3;
/// Reports of each stream of them, and streams.
const REPORTS: u64 = 2_000;
const REPORT_STREAMS: u32 = 15;
/// Requests that wait for the last one's answer, and repetitions of them.
const ROUND_TRIPS: u64 = 5_000;
const REPETITIONS: u32 = 5;
/// Millions of requests to one service.
const MILLIONS: usize = 10;

/// So many requests in so many seconds.
#[derive(Clone, Copy, Debug, PartialEq)]
pub struct Rate {
    /// How many.
    pub requests: u64,
    /// In which time.
    pub seconds: f64,
}

impl Rate {
    /// Slower than any other.
    const NEVER: Rate = Rate {
        requests: 0,
        seconds: f64::INFINITY,
    };

    /// So many requests in this time.
    pub fn new(requests: u64, elapsed: Duration) -> Rate {
        Rate {
            requests,
            seconds: elapsed.as_secs_f64(),
        }
    }

    /// Requests a second.
    pub fn a_second(self) -> f64 {
        self.requests as f64 / self.seconds
    }

    /// The one that took less time, for as many requests.
    fn faster(self, other: Rate) -> Rate {
        if other.seconds < self.seconds {
            other
        } else {
            self
        }
    }

    /// Microseconds a request.
    pub fn microseconds(self) -> f64 {
        self.seconds * 1e6 / self.requests as f64
    }
}

/// Erects the tower and sets the wind; the report has to be the Rust version's.
fn set_up(piped: &mut Piped, timed: &TimedTower) -> Result<(), String> {
    piped.ask(&erect(timed.file()), OK)?;
    piped.ask(&wind(timed.wind()), OK)?;
    let report = reports(timed, 1);
    piped.ask(&report.requests, &report.answers)
}

/// A stream of so many requests at least.
fn stream(piped: &mut Piped, exchange: &Exchange, requests: u64) -> Result<Rate, String> {
    let times = requests.div_ceil(exchange.count);
    let elapsed = piped.stream(exchange, times)?;
    Ok(Rate::new(times * exchange.count, elapsed))
}

/// The best of some streams to each service, which take turns.
fn by_turns<const N: usize>(
    services: &mut [&mut Piped; N],
    exchange: &Exchange,
    requests: u64,
    streams: u32,
) -> Result<[Rate; N], String> {
    let mut best = [Rate::NEVER; N];
    for _ in 0..streams {
        for (piped, best) in services.iter_mut().zip(&mut best) {
            *best = best.faster(stream(piped, exchange, requests)?);
        }
    }
    Ok(best)
}

/// The rates of both kinds of streams to each service.
fn both_by_turns<const N: usize>(
    mut services: [&mut Piped; N],
    timed: &TimedTower,
) -> Result<[[Rate; N]; 2], String> {
    let hangings = hangings(timed.sections());
    let reports = reports(timed, 100);
    Ok([
        by_turns(&mut services, &hangings, MILLION, STREAMS)?,
        by_turns(&mut services, &reports, REPORTS, REPORT_STREAMS)?,
    ])
}

/// Each request waits for the last one's answer.
fn round_trips(piped: &mut Piped) -> Result<Rate, String> {
    let start = Instant::now();
    for round in 0..ROUND_TRIPS / 2 {
        let item = dish(round);
        piped.ask(&hang(&item), OK)?;
        piped.ask(&take_down(item.number), OK)?;
    }
    Ok(Rate::new(ROUND_TRIPS, start.elapsed()))
}

/// Rates of one service with this tower, and what they are of.
pub fn on_tower(program: &str, timed: &TimedTower) -> Result<[(&'static str, Rate); 3], String> {
    with_service(program, |piped| {
        set_up(piped, timed)?;
        let [[hangings], [reports]] = both_by_turns([piped], timed)?;
        let mut trips = Rate::NEVER;
        for _ in 0..REPETITIONS {
            trips = trips.faster(round_trips(piped)?);
        }
        Ok([
            ("hang, take down", hangings),
            ("report", reports),
            ("round trip", trips),
        ])
    })
}

/// Ten million hangings and take-downs on one service.
pub struct Long {
    /// Each million of them.
    pub millions: Vec<Rate>,
    /// Hangings and take-downs, and reports: of a fresh tower on another service, and
    /// of this one after the last million.
    pub beside_fresh: [[Rate; 2]; 2],
}

/// The text of the report is the same before the first one, after the last one and
/// on the fresh tower. `each` is told of each million.
pub fn long(
    program: &str,
    timed: &TimedTower,
    mut each: impl FnMut(usize, Rate),
) -> Result<Long, String> {
    // both start and are used now: beside a process that was started later, the
    // reports of this one came out slower
    with_service(program, |fresh| {
        with_service(program, |piped| {
            set_up(fresh, timed)?;
            set_up(piped, timed)?;
            let hangings = hangings(timed.sections());
            let mut millions = Vec::new();
            for place in 1..=MILLIONS {
                let rate = stream(piped, &hangings, MILLION)?;
                each(place, rate);
                millions.push(rate);
            }
            set_up(fresh, timed)?;
            Ok(Long {
                millions,
                beside_fresh: both_by_turns([fresh, piped], timed)?,
            })
        })
    })
}

impl Long {
    /// All but the millions in between, with their names.
    pub fn named(&self) -> [(&'static str, Rate); 6] {
        let order = |left: &&Rate, right: &&Rate| left.seconds.total_cmp(&right.seconds);
        let slowest = self.millions.iter().max_by(order).expect("a million");
        let fastest = self.millions.iter().min_by(order).expect("a million");
        let [hangings, reports] = self.beside_fresh;
        [
            ("slowest million of ten", *slowest),
            ("fastest million of ten", *fastest),
            ("fresh tower: hang, take down", hangings[0]),
            ("after ten million: hang, take down", hangings[1]),
            ("fresh tower: report", reports[0]),
            ("after ten million: report", reports[1]),
        ]
    }
}

/// The table's first line.
pub fn head() -> String {
    format!(
        "{:<44} {:>10} {:>10}",
        "requests through a pipe", "a second", "us each"
    )
}

/// One line of the table.
pub fn line(name: &str, rate: Rate) -> String {
    format!(
        "{name:<44} {:>10.0} {:>10.2}",
        rate.a_second(),
        rate.microseconds()
    )
}
