//! What the calls answer, as numbers for a digest.

use crate::file_cases::digest;
use crate::refusal::Refusal;
use crate::service::Service;
use crate::vectors::{number, set_wind, Call};

/// What each lent byte holds before a write.
pub const LENT_BYTE: u8 = 165;

/// What each lent number holds before a report: eight such bytes.
pub const LENT_NUMBER: u64 = u64::from_be_bytes([LENT_BYTE; 8]);

/// Stands for the answer that no section is over its allowance.
pub const NONE_OVER: u64 = 32;

/// An answer.
#[derive(Clone, Copy, Debug, PartialEq, Eq)]
pub struct Answer {
    /// Document 01's number of the refusal; 0 if the call is accepted.
    pub number: u32,
    /// A number for everything else that the call hands back, lent elements
    /// included.
    pub rest: u64,
}

impl Answer {
    /// Makes the call.
    pub fn to(call: &Call, service: &mut Service) -> Answer {
        let alone = |turned: Result<(), Refusal>| (number(turned), 0);
        let (number, rest) = match call {
            Call::Erect(file) => alone(service.erect(file)),
            Call::Hang(item) => alone(service.hang(*item)),
            Call::TakeDown(number) => alone(service.take_down(*number)),
            Call::Wind(wind) => alone(set_wind(service, wind)),
            Call::Report(room) => report(service, *room),
            Call::Check => check(service),
            Call::Write(room) => write(service, *room),
        };
        Answer { number, rest }
    }
}

/// The rest is the digest of the lent numbers.
fn report(service: &Service, room: usize) -> (u32, u64) {
    let mut lent = vec![LENT_NUMBER; room];
    let number = number(service.report(&mut lent));
    (number, digest(lent))
}

/// The rest is the section, or stands for none; 0 after a refusal.
fn check(service: &Service) -> (u32, u64) {
    match service.check() {
        Ok(section) => (0, section.map_or(NONE_OVER, u64::from)),
        Err(refusal) => (refusal.number(), 0),
    }
}

/// The rest is the digest of the lent bytes, with the length behind them.
fn write(service: &Service, room: usize) -> (u32, u64) {
    let mut lent = vec![LENT_BYTE; room];
    let answer = service.write(&mut lent);
    let length = answer.unwrap_or(0) as u64;
    let values = lent.into_iter().map(u64::from).chain([length]);
    (number(answer), digest(values))
}
