//! Items that take the formula's value at one pressure to a whole number of
//! newtons, or beside one by as little as items allow: where that pressure
//! governs, the smallest error changes the answer.

use super::{Case, UNITS};
use crate::plain;
use crate::rational::Rational;
use crate::sample::item;
use crate::tower::Item;
use crate::units::{Force, Length};

/// The most items that are added.
pub const MOST_ADDED: usize = PLACES.len();

/// Length, coefficient and position factor of each: a millimetre of width adds
/// to the items' sum 3 000 times what it adds one place before.
const PLACES: [(u32, u16, u16); 4] = [
    (1, 1, 1),
    (1, 3_000, 1),
    (3, 3_000, 1_000),
    (9_000, 3_000, 1_000),
];

/// Widths that an item can have.
const WIDTHS: u64 = 3_000;

/// The case with items more: in the middle so that the value at full pressure
/// just does not pass a whole number of newtons, before that with the least
/// taken off, and after it with the least more.
pub fn beside_whole(case: &Case) -> [Case; 3] {
    beside_whole_at(case, case.pressure())
}

/// The same for the value at this pressure.
pub fn beside_whole_at(case: &Case, pressure: u16) -> [Case; 3] {
    // more than two newtons
    let factored = u64::from(pressure) * u64::from(case.wind.structure_factor);
    let mut too_much = 2 * UNITS / factored + 1;
    let mut counts = 1..=MOST_ADDED;
    let enough = counts.find(|count| WIDTHS.pow(*count as u32) > too_much);
    let count = enough.expect("places for two newtons");
    let value = |sum| with_more(case, count, sum).formula(pressure);
    let Force(least) = value(0).least_whole();
    let whole = Force(least + 1);
    let fits = |sum| value(sum).is_at_most(whole);
    let mut most = 0;
    while too_much - most > 1 {
        let middle = most + (too_much - most) / 2;
        if fits(middle) {
            most = middle;
        } else {
            too_much = middle;
        }
    }
    [most - 1, most, most + 1].map(|sum| with_more(case, count, sum))
}

/// Whether the force at full pressure is a whole number of newtons up to this
/// part of it, in plain floating point: a sieve for draws, with exact arithmetic
/// behind it.
pub fn is_nearly_whole(case: &Case, part: f64) -> bool {
    let (legs, items) = (case.tower.legs, case.item_sum() as f64 / 1e12);
    let force = plain::formula(legs, case.section(), &case.wind, case.pressure(), items);
    (force - force.round()).abs() <= part * force
}

/// Whether the exact force at full pressure is a whole number of newtons.
pub fn is_whole(case: &Case) -> bool {
    is_whole_at(case, case.pressure())
}

/// Whether the formula's value at this pressure is a whole number of newtons.
pub fn is_whole_at(case: &Case, pressure: u16) -> bool {
    let exact = case.formula(pressure);
    let Force(least) = exact.least_whole();
    exact.compare(&Rational::whole(least)).is_eq()
}

/// The case with so many items more. At 0 each of them is 1 mm wide; the items'
/// sum is above that by `sum`.
fn with_more(case: &Case, count: usize, mut sum: u64) -> Case {
    let mut case = case.clone();
    for (length, coefficient, position) in &PLACES[..count] {
        let (bare, iced) = match case.wind.ice_class {
            0 => (*coefficient, 0),
            _ => (0, *coefficient),
        };
        case.tower.items.push(Item {
            width: Length(1 + (sum % WIDTHS) as u32),
            length: Length(*length),
            bare,
            iced,
            position: *position,
            ..item(100 + case.tower.items.len() as u16)
        });
        sum /= WIDTHS;
    }
    assert_eq!(sum, 0, "more than the widths hold");
    case
}
