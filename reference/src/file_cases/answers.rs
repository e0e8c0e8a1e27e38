//! What the program prints.

use super::digest::{digest, tower_values};
use super::{Case, Meaning};
use crate::file;
use crate::refusal::Refusal;
use crate::service::Service;

/// What each lent byte holds before a write.
const LENT: u8 = 165;

/// Lent bytes beyond the file.
const BEYOND: usize = 5;

/// The program between two lines.
#[derive(Clone, Debug, Default, PartialEq, Eq)]
pub struct Program {
    /// The file of the last line with one, accepted or not.
    base: Vec<u8>,
}

impl Program {
    /// The answer without its newline.
    pub fn answer(&mut self, meaning: &Meaning) -> String {
        let case = match meaning {
            Meaning::Error(message) => return format!("error: {message}"),
            Meaning::Case(case) => case,
        };
        let file = case.file(&self.base);
        let answer = match case {
            Case::Room(room) => write_answer(&file, *room),
            _ => read_answer(&file),
        };
        if let Case::File(_) = case {
            self.base = file;
        }
        answer.unwrap_or_else(|refusal| format!("refused {}", refusal.number()))
    }
}

/// The length that write answers, and the digests of the tower and of the lent
/// bytes.
fn read_answer(bytes: &[u8]) -> Result<String, Refusal> {
    let tower = file::read(bytes)?;
    let length = file::write(&tower).len();
    let (answer, out) = write_into(bytes, length + BEYOND)?;
    assert_eq!(answer, Ok(length));
    let tower = digest(tower_values(&tower));
    Ok(format!("ok {length} {tower} {out}"))
}

/// The length or refusal 22, and the digest of the lent bytes.
fn write_answer(bytes: &[u8], room: usize) -> Result<String, Refusal> {
    let (answer, out) = write_into(bytes, room)?;
    Ok(match answer {
        Ok(length) => format!("ok {length} {out}"),
        Err(refusal) => format!("refused {} {out}", refusal.number()),
    })
}

/// Writes the file's tower into so many lent bytes; what write answers, and the
/// digest of the bytes.
fn write_into(bytes: &[u8], room: usize) -> Result<(Result<usize, Refusal>, u64), Refusal> {
    let mut service = Service::fresh();
    service.erect(bytes)?;
    let mut lent = vec![LENT; room];
    let answer = service.write(&mut lent);
    Ok((answer, digest(lent.into_iter().map(u64::from))))
}
