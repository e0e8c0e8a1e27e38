//! What the program prints.

use super::text::{hexadecimal, words};
use super::{lines, parse, Request, HELP, REPORT_ROOM, WRITE_ROOM};
use crate::refusal::Refusal;
use crate::report::ROW;
use crate::service::Service;
use crate::vectors::set_wind;

/// The answers to all lines of an input.
pub fn session(input: &[u8]) -> Vec<u8> {
    let mut program = Program::default();
    let answers = lines(input).into_iter().map(|line| program.answer(line));
    answers.collect::<String>().into_bytes()
}

/// The program between two lines.
#[derive(Clone, Debug, Default, PartialEq, Eq)]
pub struct Program {
    /// Fresh at first.
    pub service: Service,
}

impl Program {
    /// The answer to a line, with the newline at its end.
    pub fn answer(&mut self, line: &[u8]) -> String {
        match parse(line) {
            Ok(request) => self.answer_request(&request),
            Err(fault) => format!("error {}\n", fault.message()),
        }
    }

    /// The answer to a request, with the newline at its end.
    pub fn answer_request(&mut self, request: &Request) -> String {
        let answer = match request {
            Request::Help => return HELP.to_string(),
            Request::Erect(file) => done(self.service.erect(file)),
            Request::Hang(item) => done(self.service.hang(*item)),
            Request::TakeDown(number) => done(self.service.take_down(*number)),
            Request::Wind(wind) => done(set_wind(&mut self.service, wind)),
            Request::Report(room) => self.report(*room),
            Request::Check => self.check(),
            Request::Write(room) => self.write(*room),
        };
        match answer {
            Ok(text) => format!("{text}\n"),
            Err(refusal) => format!("refused {}\n", refusal.number()),
        }
    }

    /// The count of sections, then each row on a line.
    fn report(&self, room: Option<u64>) -> Result<String, Refusal> {
        let mut numbers = vec![0; lent(room, REPORT_ROOM)];
        self.service.report(&mut numbers)?;
        let sections = self.service.tower().map_or(0, |tower| tower.sections.len());
        let rows = numbers.chunks(ROW).take(sections).map(words);
        let text: Vec<String> = [format!("ok {sections}")].into_iter().chain(rows).collect();
        Ok(text.join("\n"))
    }

    /// The topmost section over its allowance, or none.
    fn check(&self) -> Result<String, Refusal> {
        let over = self.service.check()?;
        let section = over.map_or("none".to_string(), |section| section.to_string());
        Ok(format!("ok {section}"))
    }

    fn write(&self, room: Option<u64>) -> Result<String, Refusal> {
        let mut bytes = vec![0; lent(room, WRITE_ROOM)];
        let length = self.service.write(&mut bytes)?;
        Ok(format!("ok {}", hexadecimal(&bytes[..length])))
    }
}

fn done(answer: Result<(), Refusal>) -> Result<String, Refusal> {
    answer.map(|()| "ok".to_string())
}

/// The lent elements: those asked for, or the program's own if these are fewer.
fn lent(room: Option<u64>, own: usize) -> usize {
    let asked = room.map_or(own, |room| usize::try_from(room).unwrap_or(own));
    asked.min(own)
}
