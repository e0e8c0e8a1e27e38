//! The messages for lines that are no case, in the order in which they are
//! tested: the second to the fourth from left to right, and the last two pair by
//! pair where there are pairs.

/// No letter of a case, or no space behind it.
pub const NOT_A_CASE: &str = "not a case";
/// The rest is no run of numbers.
pub const FORM: &str = "not decimal numbers with single spaces between them";
/// A number is 10¹⁹ or more.
pub const TOO_LARGE: &str = "a number is too large";
/// A line has more than 4 000 numbers.
pub const TOO_MANY: &str = "there are too many numbers";
/// The kind of line has another count of numbers.
pub const COUNT: &str = "numbers are missing or left over";
/// A number is no byte.
pub const BYTE: &str = "a byte is above 255";
/// A place, a length or a room is too large.
pub const RANGE: &str = "out of range";
