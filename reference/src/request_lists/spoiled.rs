//! Lines of requests with some bytes changed, most of which are no request then.

use super::Line;
use crate::draw::Random;
use crate::requests::Request;

/// Bytes that stand beside those of a request.
const BYTES: &[u8] = b" 0159afAFgG/:@`xXz-+.,_\t\r\0\x0b\x7f\x80\xa0\xff";

/// The longest line that is changed.
const LONGEST: usize = 200;

/// A request of this kind with one to three bytes changed, if it is short.
pub fn spoiled(random: &mut Random, request: Request) -> Line {
    let mut text = request.text().into_bytes();
    if text.len() > LONGEST {
        return request.into();
    }
    for _ in 0..random.pick(&[1, 1, 1, 2, 3]) {
        change(random, &mut text);
    }
    Line::any(text)
}

/// A byte set, put in, left out, doubled, or the line cut there.
fn change(random: &mut Random, text: &mut Vec<u8>) {
    if text.is_empty() {
        return;
    }
    let place = random.within(0, text.len() as u32 - 1) as usize;
    let byte = random.pick(BYTES);
    match random.within(0, 6) {
        0 | 1 => text[place] = byte,
        2 => text.insert(place, byte),
        3 => text.push(byte),
        4 => drop(text.remove(place)),
        5 => text.insert(place, text[place]),
        _ => text.truncate(place),
    }
}
