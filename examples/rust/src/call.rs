//! The proved library's function.

extern "C" {
    /// A slice is a pointer, then its length; see include/dembyhai.h.
    fn dembyhai_report(
        file: *const u8,
        file_length: usize,
        direction: u32,
        ice: u32,
        factor: u32,
        pressures: *const u8,
        pressures_length: usize,
        rows: *mut u8,
        rows_length: usize,
    ) -> u32;
}

/// 0, or a refusal's number; direction, ice class and structure factor are the
/// wind's numbers.
pub fn report(file: &[u8], wind: [u32; 3], pressures: &[u8], rows: &mut [u8]) -> u32 {
    let [direction, ice, factor] = wind;
    // SAFETY: the pointers and lengths are those of slices; the first two are only
    // read, and a mutable slice overlaps no other.
    unsafe {
        dembyhai_report(
            file.as_ptr(),
            file.len(),
            direction,
            ice,
            factor,
            pressures.as_ptr(),
            pressures.len(),
            rows.as_mut_ptr(),
            rows.len(),
        )
    }
}
