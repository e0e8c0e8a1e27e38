//! The same tower after other histories.

use super::{erect, report, wind, Sample};
use crate::draw::{self, Random};
use crate::request_lists::shuffled;
use crate::requests::Request;
use crate::sample::{flat, round, section, tower};
use crate::tower::{Item, Legs, Tower};

const TITLES: [&str; 4] = [
    "Three sections and 12 items: the items in the file",
    "The same tower, its items hung one by one: the same report",
    "Hung in another order: the same report",
    "After 80 hangings and 80 removals of these and of others: the same report, no drift",
];

/// With its items in a file, hung in two orders, and after many hangings and
/// removals; each under ice class 2.
pub fn samples() -> Vec<Sample> {
    let mut random = Random(0x5eed_0502);
    let part = section(2_000, 6_000, &[flat(100, 24_000), round(150, 9_000)]);
    let bare = tower(Legs::Three, &[part.clone(), part.clone(), part]);
    let items = draw::items(&mut random, 12, 3);
    let whole = Tower {
        items: items.clone(),
        ..bare.clone()
    };
    let hang = |items: &[Item]| items.iter().copied().map(Request::Hang).collect();
    let ways: [Vec<Request>; 4] = [
        vec![erect(&whole)],
        [vec![erect(&bare)], hang(&items)].concat(),
        [vec![erect(&bare)], hang(&shuffled(&mut random, &items))].concat(),
        [vec![erect(&bare)], many_changes(&mut random, &items)].concat(),
    ];
    let end = [wind(&bare, 0, 2), report()];
    let sample = |(title, way)| Sample::new(title, [way, end.to_vec()].concat());
    TITLES.into_iter().zip(ways).map(sample).collect()
}

/// Hangings and removals after which these items hang.
fn many_changes(random: &mut Random, items: &[Item]) -> Vec<Request> {
    let mut requests = Vec::new();
    for round in 0..8 {
        let others = draw::items(random, 5, 3);
        let numbered = |item: Item| Item {
            number: item.number + 100 * (round + 1),
            ..item
        };
        let others = others.into_iter().map(numbered);
        for (kept, other) in shuffled(random, items).into_iter().zip(others) {
            requests.extend([Request::Hang(other), Request::Hang(kept)]);
            requests.extend([other, kept].map(|item| Request::TakeDown(item.number)));
        }
    }
    requests.extend(shuffled(random, items).into_iter().map(Request::Hang));
    requests
}
