//! Towers for lists, each with a wind that it takes.

use crate::draw::{self, Random};
use crate::file;
use crate::file_cases::drawn_tower;
use crate::report::rows;
use crate::rules::judge_pressures;
use crate::tower::{Legs, Section, Tower, Wind, MOST_ITEMS, SECTION_COUNT};
use crate::units::Force;

/// What the towers of a list are like.
#[derive(Clone, Copy, Debug, PartialEq, Eq)]
pub enum Size {
    /// One to four sections, up to three items.
    Small,
    /// Five to 32 sections with one or two groups, up to six items.
    Tall,
    /// One or two sections and 60 to 64 items.
    Crowded,
    /// 32 sections of 8 groups and 64 items.
    Largest,
}

/// A tower, and a wind; allowances are at the shears under this wind and on
/// either side.
pub fn tower(random: &mut Random, size: Size) -> (Tower, Wind) {
    let mut tower = accepted(|| any_tower(random, size));
    let wind = wind(random, &tower);
    let over = random.pick(&[0, 3, 15, 60]);
    let shears: Vec<u64> = rows(&tower, &wind).iter().map(|row| row.shear.0).collect();
    for (section, shear) in tower.sections.iter_mut().zip(shears) {
        section.allowance = allowance(random, shear, over);
    }
    (tower, wind)
}

/// The first of these towers whose file is accepted.
pub fn accepted(mut next: impl FnMut() -> Tower) -> Tower {
    loop {
        let tower = next();
        if file::read(&file::write(&tower)).is_ok() {
            return tower;
        }
    }
}

/// Some have a face that is over full by 1 mm².
fn any_tower(random: &mut Random, size: Size) -> Tower {
    match size {
        Size::Small => draw::small_tower(random, 4),
        Size::Tall => {
            let count = random.within(5, *SECTION_COUNT.end());
            let sections: Vec<Section> = (0..count).map(|_| draw::section(random, 0, 2)).collect();
            let held = random.within(0, 6);
            Tower {
                legs: random.pick(&[Legs::Three, Legs::Four]),
                items: draw::items(random, held, sections.len()),
                sections,
            }
        }
        Size::Crowded => {
            let tower = draw::small_tower(random, 2);
            let held = random.within(60, MOST_ITEMS as u32);
            Tower {
                items: draw::items(random, held, tower.sections.len()),
                ..tower
            }
        }
        Size::Largest => {
            let legs = random.pick(&[Legs::Three, Legs::Four]);
            let groups = vec![8; *SECTION_COUNT.end() as usize];
            drawn_tower(random, legs, &groups, MOST_ITEMS as u16)
        }
    }
}

/// A wind that this tower takes; bare if the drawn ice is too thick for it.
pub fn wind(random: &mut Random, tower: &Tower) -> Wind {
    let direction = draw::direction(random, tower.legs);
    let ice_class = draw::ice_class(random);
    let mut wind = draw::wind(random, tower, direction, ice_class);
    if judge_pressures(tower, wind.ice_class, &wind.pressures).is_err() {
        wind.ice_class = 0;
    }
    wind
}

/// None, one that the shear is above in so many of a hundred cases, or one that
/// it reaches at most.
fn allowance(random: &mut Random, shear: u64, over: u32) -> Option<Force> {
    let newtons = if random.chance(over) {
        random.pick(&[shear.saturating_sub(1), shear / 2])
    } else {
        random.pick(&[0, shear, shear + 1, shear + shear / 4, 2 * shear])
    };
    Some(Force(newtons.min(u32::MAX.into()))).filter(|stated| stated.0 > 0)
}
