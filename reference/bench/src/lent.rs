//! What a function leaves in memory that is lent to it.

/// Elements that are lent beyond those that are wanted.
const BEYOND: usize = 5;

/// Lends memory filled with `fill`. Says how it differs, if it does, from these at
/// its front with the rest as it was, or the answer from their number.
pub fn difference_in<T: Copy + PartialEq>(
    wanted: &[T],
    fill: T,
    call: impl FnOnce(&mut [T]) -> u64,
) -> Option<String> {
    let expected = [wanted, &[fill; BEYOND]].concat();
    let mut lent = vec![fill; expected.len()];
    let (answer, count) = (call(&mut lent), wanted.len());
    if answer != count as u64 {
        return Some(format!("answers {answer}, not {count}"));
    }
    let place = lent.iter().zip(&expected).position(|(l, r)| l != r)?;
    Some(format!("differs from place {place} on"))
}
