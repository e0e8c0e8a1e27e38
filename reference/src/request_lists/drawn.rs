//! Drawn lists of requests, and for each the tower that it ends with, newly
//! erected with its items in another order.

use super::calls::any_request;
use super::faults::any_wrong;
use super::long::one_too_long;
use super::spoiled::spoiled;
use super::towers::{self, Size};
use super::{Line, List};
use crate::draw::Random;
use crate::file;
use crate::requests::{Program, Request};
use crate::tower::{Item, Tower, Wind};

/// Sizes of the towers, list by list.
const SIZES: [Size; 10] = [
    Size::Small,
    Size::Tall,
    Size::Small,
    Size::Crowded,
    Size::Small,
    Size::Tall,
    Size::Small,
    Size::Small,
    Size::Crowded,
    Size::Small,
];

/// How many lists are drawn; the last of them have the largest towers.
const DRAWN: usize = 80;
const LARGEST: usize = 5;

/// Each drawn list with its tower newly erected behind it.
pub fn lists() -> Vec<List> {
    let mut random = Random(0x5eed_0503);
    let mut lists = Vec::new();
    for place in 0..DRAWN {
        let size = if place < DRAWN - LARGEST {
            SIZES[place % SIZES.len()]
        } else {
            Size::Largest
        };
        let mut list = Drawn::default();
        list.draw(&mut random, size);
        let anew = list.anew(&mut random);
        if place % 40 == 20 {
            list.lines.insert(20, one_too_long(b' '));
        }
        lists.push(List {
            name: "drawn",
            lines: list.lines,
        });
        lists.push(List::new("newly erected", anew));
    }
    lists
}

/// A list that is being drawn, and the program after its lines.
#[derive(Default)]
struct Drawn {
    program: Program,
    lines: Vec<Line>,
}

impl Drawn {
    fn push(&mut self, line: impl Into<Line>) {
        let line = line.into();
        self.program.answer(&line.text);
        self.lines.push(line);
    }

    fn tower(&self) -> Tower {
        self.program.service.tower().expect("a tower").clone()
    }

    fn wind(&self) -> Option<&Wind> {
        self.program.service.current_wind()
    }

    /// 40 to 100 lines. The first erects a tower, and most often its wind follows.
    fn draw(&mut self, random: &mut Random, size: Size) {
        let length = random.within(42, 95) as usize;
        let (tower, wind) = towers::tower(random, size);
        self.push(Request::Erect(file::write(&tower)));
        if random.chance(80) {
            self.push(Request::Wind(wind));
        }
        while self.lines.len() < length {
            let line = self.any_line(random, size);
            self.push(line);
        }
        self.finish(random);
    }

    fn any_line(&self, random: &mut Random, size: Size) -> Line {
        let tower = self.tower();
        if random.chance(4) {
            return any_wrong(random);
        }
        if self.wind().is_none() && random.chance(45) {
            return Request::Wind(towers::wind(random, &tower)).into();
        }
        let request = any_request(random, &tower, size);
        if random.chance(5) {
            spoiled(random, request)
        } else {
            request.into()
        }
    }

    /// A report, a check and a write that are accepted.
    fn finish(&mut self, random: &mut Random) {
        if self.wind().is_none() {
            let wind = towers::wind(random, &self.tower());
            self.push(Request::Wind(wind));
        }
        self.push(Request::Report(None));
        self.push(Request::Check);
        self.push(Request::Write(None));
    }

    /// The list's tower newly erected, under the same wind, with its report, check
    /// and file.
    fn anew(&self, random: &mut Random) -> Vec<Request> {
        let tower = self.tower();
        let wind = self.wind().expect("a wind").clone();
        let items = shuffled(random, &tower.items);
        let bare = Tower {
            items: Vec::new(),
            ..tower
        };
        let mut requests = vec![Request::Erect(file::write(&bare))];
        requests.extend(items.into_iter().map(Request::Hang));
        requests.extend([
            Request::Wind(wind),
            Request::Report(None),
            Request::Check,
            Request::Write(None),
        ]);
        requests
    }
}

/// The same items in another order.
pub fn shuffled(random: &mut Random, items: &[Item]) -> Vec<Item> {
    let mut items = items.to_vec();
    for place in (1..items.len()).rev() {
        items.swap(place, random.within(0, place as u32) as usize);
    }
    items
}
