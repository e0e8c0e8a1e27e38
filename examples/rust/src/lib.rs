//! Wind forces on lattice towers: Dembyhai's proved call for host programs, for
//! Rust.
//!
//! ```no_run
//! use dembyhai::{report, Wind};
//!
//! let file = std::fs::read("examples/mast.tower").expect("a file");
//! let wind = Wind {
//!     direction: 0,
//!     ice_class: 0,
//!     structure_factor: 1_050,
//!     pressures: vec![1_000; 12],
//! };
//! match report(&file, &wind) {
//!     Ok(rows) => println!("{} N at the foot", rows[11].shear),
//!     Err(refusal) => println!("refused {}: {refusal}", refusal.number()),
//! }
//! ```

#[allow(unsafe_code)]
mod call;
mod refusal;

pub use refusal::Refusal;

/// The most sections of a tower.
pub const MAX_SECTIONS: usize = 32;
/// The length of the largest tower file.
pub const MAX_FILE_BYTES: usize = 2_915;
/// Numbers of one row, of 8 bytes each.
const ROW_NUMBERS: usize = 6;
/// Bytes of one row.
const ROW_BYTES: usize = 8 * ROW_NUMBERS;

/// The wind on a tower.
#[derive(Clone, Debug, PartialEq, Eq)]
pub struct Wind {
    /// k: 15 degrees times k from the normal of face 1.
    pub direction: u32,
    /// 0 bare, 1 to 5 for G1 to G5.
    pub ice_class: u32,
    /// In thousandths.
    pub structure_factor: u32,
    /// N/m², one per section, from the top.
    pub pressures: Vec<u16>,
}

/// One section's row of the report.
#[derive(Clone, Copy, Debug, PartialEq, Eq)]
pub struct Row {
    /// A_f, flat members, in mm².
    pub flat: u64,
    /// A_c, round members in subcritical flow, in mm².
    pub subcritical: u64,
    /// A_p, round members in supercritical flow, in mm².
    pub supercritical: u64,
    /// The force on the section in N.
    pub force: u64,
    /// The shear at its foot in N.
    pub shear: u64,
    /// The moment at its foot in N mm.
    pub moment: u64,
}

/// The rows of a tower file under a wind, from the top, or the first refusal.
pub fn report(file: &[u8], wind: &Wind) -> Result<Vec<Row>, Refusal> {
    let pressures: Vec<u8> = wind
        .pressures
        .iter()
        .flat_map(|pressure| pressure.to_be_bytes())
        .collect();
    let mut rows = [0; MAX_SECTIONS * ROW_BYTES];
    let answer = call::report(
        file,
        [wind.direction, wind.ice_class, wind.structure_factor],
        &pressures,
        &mut rows,
    );
    match Refusal::of(answer) {
        Some(refusal) => Err(refusal),
        // an accepted wind has one pressure per section
        None => Ok(rows
            .chunks_exact(ROW_BYTES)
            .take(wind.pressures.len())
            .map(Row::read)
            .collect()),
    }
}

impl Row {
    fn read(bytes: &[u8]) -> Row {
        let number = |place: usize| {
            let bytes = &bytes[8 * place..8 * (place + 1)];
            bytes
                .iter()
                .fold(0, |high, &low| high << 8 | u64::from(low))
        };
        Row {
            flat: number(0),
            subcritical: number(1),
            supercritical: number(2),
            force: number(3),
            shear: number(4),
            moment: number(5),
        }
    }
}
