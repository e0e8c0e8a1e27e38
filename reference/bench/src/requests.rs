//! Requests to the service program and its answers, as text.

use crate::calls::TimedTower;
use crate::towers::{dish, FIRST_ITEM};
use reference::report::ROW;
use reference::tower::{Item, Wind};

/// What a request that is accepted is answered, where nothing more is said.
pub const OK: &str = "ok\n";

/// Requests, and what they are answered.
#[derive(Clone, Debug, Default, PartialEq, Eq)]
pub struct Exchange {
    /// Lines.
    pub requests: String,
    /// All answers, one behind the other.
    pub answers: String,
    /// How many requests.
    pub count: u64,
}

impl Exchange {
    /// One request more.
    fn push(&mut self, request: &str, answer: &str) {
        self.requests += request;
        self.answers += answer;
        self.count += 1;
    }

    /// One request, so many times.
    fn repeated(request: &str, answer: &str, times: u64) -> Exchange {
        let mut exchange = Exchange::default();
        for _ in 0..times {
            exchange.push(request, answer);
        }
        exchange
    }
}

/// Erects the file.
pub fn erect(file: &[u8]) -> String {
    let digits: String = file.iter().map(|byte| format!("{byte:02x}")).collect();
    format!("erect {digits}\n")
}

/// Sets the wind.
pub fn wind(wind: &Wind) -> String {
    let numbers = [wind.direction, wind.ice_class, wind.structure_factor];
    let pressures = wind.pressures.iter().map(u16::to_string);
    let words: Vec<String> = numbers
        .iter()
        .map(u32::to_string)
        .chain(pressures)
        .collect();
    format!("wind {}\n", words.join(" "))
}

/// Hangs the item.
pub fn hang(item: &Item) -> String {
    let Item {
        number,
        section,
        width,
        length,
        bare,
        iced,
        position,
    } = item;
    format!(
        "hang {number} {section} {} {} {bare} {iced} {position}\n",
        width.0, length.0
    )
}

/// Takes the item with this number down.
pub fn take_down(number: u16) -> String {
    format!("takedown {number}\n")
}

/// Asks for a report.
pub const REPORT: &str = "report\n";

/// The answer with these numbers.
pub fn report_answer(numbers: &[u64]) -> String {
    let mut answer = format!("ok {}\n", numbers.len() / ROW);
    for row in numbers.chunks(ROW) {
        let words: Vec<String> = row.iter().map(u64::to_string).collect();
        answer += &format!("{}\n", words.join(" "));
    }
    answer
}

/// A dish hung and taken down under each of 1 000 numbers, from section to section
/// of so many.
pub fn hangings(sections: usize) -> Exchange {
    let mut exchange = Exchange::default();
    for round in 0..u64::from(FIRST_ITEM) {
        let item = Item {
            section: (round % sections as u64) as u8,
            ..dish(round)
        };
        exchange.push(&hang(&item), OK);
        exchange.push(&take_down(item.number), OK);
    }
    exchange
}

/// So many reports of the tower.
pub fn reports(timed: &TimedTower, count: u64) -> Exchange {
    Exchange::repeated(REPORT, &report_answer(&timed.exact_numbers()), count)
}
