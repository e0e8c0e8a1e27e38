//! Document 01's sample towers and those of the requests, as titled requests:
//! what the program `samples` reads, and the transcript that it has to print.

mod allowances;
mod further;
mod histories;
mod lesser;
mod readers;
mod refused;
mod rising;
mod starred;

use crate::file;
use crate::outputs::OutputFile;
use crate::requests::{lines, Program, Request};
use crate::sample::{flat, sample, sample_wind};
use crate::tower::{Legs, Tower, Wind};

/// Requests under a title; a heading has none.
#[derive(Clone, Debug, PartialEq, Eq)]
pub struct Sample {
    /// ASCII, printed behind `# `.
    pub title: &'static str,
    /// In their order.
    pub requests: Vec<Request>,
}

impl Sample {
    fn new(title: &'static str, requests: impl IntoIterator<Item = Request>) -> Sample {
        Sample {
            title,
            requests: requests.into_iter().collect(),
        }
    }

    fn heading(title: &'static str) -> Sample {
        Sample::new(title, [])
    }
}

/// All samples. The service keeps its tower from one to the next.
pub fn samples() -> Vec<Sample> {
    [
        refused::no_tower(),
        starred::samples(),
        lesser::samples(),
        rising::samples(),
        further::samples(),
        readers::samples(),
        histories::samples(),
        allowances::samples(),
        refused::samples(),
    ]
    .concat()
}

/// A title is printed as it is, any other line behind `> ` and with its answer.
pub fn transcript(input: &[u8]) -> Vec<u8> {
    let mut program = Program::default();
    let mut print = |line: &[u8]| {
        if line.starts_with(b"#") {
            [line, b"\n"].concat()
        } else {
            [b"> ", line, b"\n", program.answer(line).as_bytes()].concat()
        }
    };
    lines(input).into_iter().flat_map(&mut print).collect()
}

/// `stdin` and `stdout` of the program.
pub fn files() -> Vec<OutputFile> {
    let text = |sample: &Sample| {
        let requests = sample.requests.iter();
        let lines: String = requests.map(|request| request.text() + "\n").collect();
        format!("# {}\n{lines}", sample.title)
    };
    let stdin: String = samples().iter().map(text).collect();
    let stdout = transcript(stdin.as_bytes());
    let files = [("stdin", stdin.into_bytes()), ("stdout", stdout)];
    files
        .map(|(name, bytes)| OutputFile { name, bytes })
        .to_vec()
}

/// Four legs, flat 100 by 24 000.
fn first_sample() -> Tower {
    sample(Legs::Four, &[flat(100, 24_000)])
}

fn erect(tower: &Tower) -> Request {
    Request::Erect(file::write(tower))
}

/// The samples' wind on this tower.
fn wind(tower: &Tower, direction: u32, ice_class: u32) -> Request {
    Request::Wind(sample_wind(tower, direction, ice_class))
}

/// The samples' wind with these pressures.
fn blowing(tower: &Tower, pressures: &[u16]) -> Request {
    Request::Wind(Wind {
        pressures: pressures.to_vec(),
        ..sample_wind(tower, 0, 0)
    })
}

/// With as much room as the program has.
fn report() -> Request {
    Request::Report(None)
}

/// The tower under the samples' wind with k = 0 and without ice, and its report.
fn reported(tower: &Tower) -> [Request; 3] {
    [erect(tower), wind(tower, 0, 0), report()]
}
