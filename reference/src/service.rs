//! The plain machine: its state and its seven calls.

use crate::file;
use crate::refusal::Refusal;
use crate::report::{is_over, rows, Row, ROW};
use crate::rules::{judge_hanging, judge_pressures, judge_wind_numbers, refuse_if};
use crate::tower::{Item, Tower, Wind};

/// The service. A refused call changes nothing, lent slices included.
#[derive(Clone, Debug, Default, PartialEq, Eq)]
pub struct Service {
    state: Option<State>,
}

/// A tower, and a wind or none.
#[derive(Clone, Debug, PartialEq, Eq)]
struct State {
    tower: Tower,
    wind: Option<Wind>,
}

impl Service {
    /// A fresh service has no tower.
    pub fn fresh() -> Service {
        Service::default()
    }

    /// The tower with its items in hanging order, or none.
    pub fn tower(&self) -> Option<&Tower> {
        self.state.as_ref().map(|state| &state.tower)
    }

    /// The wind, or none.
    pub fn current_wind(&self) -> Option<&Wind> {
        self.state.as_ref()?.wind.as_ref()
    }

    /// Replaces everything by the file's tower, without wind. Refusals 2 to 13.
    pub fn erect(&mut self, file: &[u8]) -> Result<(), Refusal> {
        let tower = file::read(file)?;
        self.state = Some(State { tower, wind: None });
        Ok(())
    }

    /// Joins an item at the list's end. Refusals 1, 9, 10, 11, 12.
    pub fn hang(&mut self, item: Item) -> Result<(), Refusal> {
        let state = self.standing_mut()?;
        judge_hanging(&state.tower, &item)?;
        state.tower.items.push(item);
        Ok(())
    }

    /// Removes an item; the others keep their order. Refusals 1, 14.
    pub fn take_down(&mut self, number: u16) -> Result<(), Refusal> {
        let items = &mut self.standing_mut()?.tower.items;
        let place = items.iter().position(|item| item.number == number);
        items.remove(place.ok_or(Refusal::NoSuchItem)?);
        Ok(())
    }

    /// Replaces the wind. Refusals 1, 15, 16, 17, 18, 19, 20.
    pub fn wind(
        &mut self,
        k: u32,
        ice: u32,
        factor: u32,
        pressures: &[u16],
    ) -> Result<(), Refusal> {
        let state = self.standing_mut()?;
        judge_wind_numbers(&state.tower, k, ice, factor)?;
        judge_pressures(&state.tower, ice, pressures)?;
        state.wind = Some(Wind {
            direction: k,
            ice_class: ice,
            structure_factor: factor,
            pressures: pressures.to_vec(),
        });
        Ok(())
    }

    /// Writes six numbers per section, from the top, and leaves the rest of
    /// the slice. Refusals 1, 21, 22.
    pub fn report(&self, lent: &mut [u64]) -> Result<(), Refusal> {
        let state = self.standing()?;
        let wind = state.wind.as_ref().ok_or(Refusal::NoWind)?;
        let filled = ROW * state.tower.sections.len();
        refuse_if(lent.len() < filled, Refusal::LentTooShort)?;
        for (part, row) in lent.chunks_mut(ROW).zip(rows(&state.tower, wind)) {
            part.copy_from_slice(&row.numbers());
        }
        Ok(())
    }

    /// The topmost section over its allowance, which is the lowest number of
    /// those over, or none. Refusals 1, 21.
    pub fn check(&self) -> Result<Option<u8>, Refusal> {
        let (tower, rows) = self.rows()?;
        let sections = (0u8..).zip(tower.sections.iter().zip(&rows));
        let over = sections.filter(|(_, (section, row))| is_over(section, row));
        Ok(over.map(|(number, _)| number).min())
    }

    /// Whether this section is over its allowance: it exists, its allowance is
    /// stated and its reported shear is above it. Refusals 1, 21.
    pub fn is_over(&self, section: u8) -> Result<bool, Refusal> {
        let (tower, rows) = self.rows()?;
        let place = usize::from(section);
        Ok(place < rows.len() && is_over(&tower.sections[place], &rows[place]))
    }

    /// Writes the tower's file, answers its length and leaves the bytes
    /// beyond. Refusals 1, 22.
    pub fn write(&self, lent: &mut [u8]) -> Result<usize, Refusal> {
        let file = file::write(&self.standing()?.tower);
        refuse_if(lent.len() < file.len(), Refusal::LentTooShort)?;
        lent[..file.len()].copy_from_slice(&file);
        Ok(file.len())
    }

    fn standing(&self) -> Result<&State, Refusal> {
        self.state.as_ref().ok_or(Refusal::NoTower)
    }

    fn standing_mut(&mut self) -> Result<&mut State, Refusal> {
        self.state.as_mut().ok_or(Refusal::NoTower)
    }

    fn rows(&self) -> Result<(&Tower, Vec<Row>), Refusal> {
        let state = self.standing()?;
        let wind = state.wind.as_ref().ok_or(Refusal::NoWind)?;
        Ok((&state.tower, rows(&state.tower, wind)))
    }
}
