//! The rules that hang and wind test, each in rising order.

use crate::areas::{gross_face_area, solid_area};
use crate::refusal::Refusal;
use crate::tower::{
    ice_thickness, Item, Legs, Tower, COEFFICIENT, DIRECTION, ICE_CLASS, ITEM_LENGTH, ITEM_WIDTH,
    MOST_ITEMS, POSITION_FACTOR, PRESSURE, STRUCTURE_FACTOR,
};

/// Refusals 9 to 12 of hang.
pub fn judge_hanging(tower: &Tower, item: &Item) -> Result<(), Refusal> {
    refuse_if(tower.items.len() >= MOST_ITEMS, Refusal::ItemCount)?;
    let held = tower.items.iter().any(|other| other.number == item.number);
    refuse_if(held, Refusal::ItemNumber)?;
    let nowhere = usize::from(item.section) >= tower.sections.len();
    refuse_if(nowhere, Refusal::ItemSection)?;
    let in_range = ITEM_WIDTH.contains(&item.width.0)
        && ITEM_LENGTH.contains(&item.length.0)
        && COEFFICIENT.contains(&item.bare.into())
        && COEFFICIENT.contains(&item.iced.into())
        && POSITION_FACTOR.contains(&item.position.into());
    refuse_if(!in_range, Refusal::ItemField)
}

/// Refusals 15 to 17 of wind.
pub fn judge_wind_numbers(tower: &Tower, k: u32, ice: u32, factor: u32) -> Result<(), Refusal> {
    let odd_on_triangle = tower.legs == Legs::Three && k % 2 == 1;
    let unfit = !DIRECTION.contains(&k) || odd_on_triangle;
    refuse_if(unfit, Refusal::Direction)?;
    refuse_if(!ICE_CLASS.contains(&ice), Refusal::IceClass)?;
    refuse_if(
        !STRUCTURE_FACTOR.contains(&factor),
        Refusal::StructureFactor,
    )
}

/// Refusals 18 to 20 of wind, for an ice class that exists.
pub fn judge_pressures(tower: &Tower, ice: u32, pressures: &[u16]) -> Result<(), Refusal> {
    let one_each = pressures.len() == tower.sections.len();
    refuse_if(!one_each, Refusal::PressureCount)?;
    let in_range = pressures.iter().all(|pressure| PRESSURE.contains(pressure));
    refuse_if(!in_range, Refusal::Pressure)?;
    let ice = ice_thickness(ice);
    let mut sections = tower.sections.iter();
    let overfull = sections.any(|section| solid_area(section, ice) > gross_face_area(section));
    refuse_if(overfull, Refusal::IcedFaceOverfull)
}

/// Turns down with this refusal if its condition is met.
pub fn refuse_if(condition: bool, refusal: Refusal) -> Result<(), Refusal> {
    if condition {
        Err(refusal)
    } else {
        Ok(())
    }
}
