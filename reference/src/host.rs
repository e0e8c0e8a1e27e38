//! The whole path in one call, for a host program in C.

use crate::refusal::Refusal;
use crate::report::ROW;
use crate::rules::{judge_wind_numbers, refuse_if};
use crate::service::Service;

/// Bytes of one section's row.
pub const ROW_BYTES: usize = 8 * ROW;

/// Erect, wind and report from fresh: answers 0 or the refusal's number.
/// Pressures come as 2 bytes each and rows go out as 8 bytes per number, high
/// byte first. A refused call changes no row byte; bytes beyond the rows stay.
pub fn host_call(
    file: &[u8],
    k: u32,
    ice: u32,
    factor: u32,
    pressures: &[u8],
    rows: &mut [u8],
) -> u32 {
    match whole_path(file, k, ice, factor, pressures, rows) {
        Ok(()) => 0,
        Err(refusal) => refusal.number(),
    }
}

fn whole_path(
    file: &[u8],
    k: u32,
    ice: u32,
    factor: u32,
    pressures: &[u8],
    rows: &mut [u8],
) -> Result<(), Refusal> {
    let mut service = Service::fresh();
    service.erect(file)?;
    let tower = service.tower().expect("just erected");
    let sections = tower.sections.len();
    // 18 is about bytes here, so 15 to 17 are tested ahead of it.
    judge_wind_numbers(tower, k, ice, factor)?;
    refuse_if(pressures.len() != 2 * sections, Refusal::PressureCount)?;
    let pairs = pressures.chunks_exact(2);
    let pressures: Vec<u16> = pairs.map(|p| u16::from_be_bytes([p[0], p[1]])).collect();
    service.wind(k, ice, factor, &pressures)?;
    refuse_if(rows.len() < ROW_BYTES * sections, Refusal::LentTooShort)?;
    let mut numbers = vec![0; ROW * sections];
    service.report(&mut numbers)?;
    for (part, number) in rows.chunks_mut(8).zip(numbers) {
        part.copy_from_slice(&number.to_be_bytes());
    }
    Ok(())
}
