//! The words of one line.

use super::{Fault, Wrong};
use std::str::SplitWhitespace;

/// The most characters of a word that a message shows.
const SHOWN: usize = 40;

/// What remains of a line.
pub struct Words<'a> {
    line: usize,
    rest: SplitWhitespace<'a>,
    last: &'a str,
}

impl<'a> Words<'a> {
    /// A line without its comment, and its number.
    pub fn of(line: usize, text: &'a str) -> Words<'a> {
        let text = text.split('#').next().unwrap_or_default();
        Words {
            line,
            rest: text.split_whitespace(),
            last: "",
        }
    }

    /// The line's number.
    pub fn line(&self) -> usize {
        self.line
    }

    /// This is wrong with the line.
    pub fn wrong<T>(&self, what: &str) -> Result<T, Wrong> {
        Err(Wrong {
            line: self.line,
            fault: Fault::Words(what.to_string()),
        })
    }

    /// The next word, if there is one.
    pub fn next(&mut self) -> Option<&'a str> {
        let word = self.rest.next()?;
        self.last = word;
        Some(word)
    }

    /// The next word as this reads it; `due` says what it must be.
    pub fn read<T>(&mut self, due: &str, read: impl Fn(&str) -> Option<T>) -> Result<T, Wrong> {
        let last = shown(self.last);
        let Some(word) = self.next() else {
            return self.wrong(&format!("{due} is missing after {last}"));
        };
        match read(word) {
            Some(meaning) => Ok(meaning),
            None => self.wrong(&format!("{due} is due after {last}, not {}", shown(word))),
        }
    }

    /// Exactly this word.
    pub fn word(&mut self, due: &str) -> Result<(), Wrong> {
        self.read(&shown(due), |word| (word == due).then_some(()))
    }

    /// A whole number.
    pub fn number(&mut self) -> Result<u64, Wrong> {
        self.read("a whole number", whole)
    }

    /// A name, a whole number and its unit.
    pub fn measure(&mut self, name: &str, unit: &str) -> Result<u64, Wrong> {
        self.word(name)?;
        let number = self.number()?;
        self.word(unit)?;
        Ok(number)
    }

    /// A name and a number with up to three decimals, in thousandths.
    pub fn thousandths(&mut self, name: &str) -> Result<u64, Wrong> {
        self.word(name)?;
        self.read("a number with up to three decimals", decimal)
    }

    /// That the line ends here.
    pub fn end(&mut self) -> Result<(), Wrong> {
        let last = shown(self.last);
        match self.next() {
            Some(word) => self.wrong(&format!(
                "the line ends after {last}, without {}",
                shown(word)
            )),
            None => Ok(()),
        }
    }
}

/// A word in quotes, cut if it is long, its control characters escaped.
pub fn shown(word: &str) -> String {
    let mut characters = word.chars();
    let kept: String = characters.by_ref().take(SHOWN).collect();
    let cut = if characters.next().is_some() {
        "..."
    } else {
        ""
    };
    format!("'{}{cut}'", kept.escape_debug())
}

/// Decimal digits and nothing else; a number beyond 64 bits is as good as the
/// largest.
pub fn whole(word: &str) -> Option<u64> {
    let digits = !word.is_empty() && word.bytes().all(|byte| byte.is_ascii_digit());
    digits.then(|| word.parse().unwrap_or(u64::MAX))
}

/// Digits, or digits, a point and one to three digits; in thousandths.
fn decimal(word: &str) -> Option<u64> {
    let (units, decimals) = word.split_once('.').unwrap_or((word, "0"));
    if !(1..=3).contains(&decimals.len()) {
        return None;
    }
    let part = whole(&format!("{decimals:0<3}"))?;
    Some(whole(units)?.saturating_mul(1_000).saturating_add(part))
}
