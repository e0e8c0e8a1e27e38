//! Quantities that are never mixed.

use std::iter::Sum;
use std::ops::{Add, Mul};

/// A length in mm.
#[derive(Clone, Copy, Debug, Default, PartialEq, Eq, PartialOrd, Ord)]
pub struct Length(pub u32);

/// An area in mm².
#[derive(Clone, Copy, Debug, Default, PartialEq, Eq, PartialOrd, Ord)]
pub struct Area(pub u64);

/// A force in N.
#[derive(Clone, Copy, Debug, Default, PartialEq, Eq, PartialOrd, Ord)]
pub struct Force(pub u64);

/// A moment in N mm.
#[derive(Clone, Copy, Debug, Default, PartialEq, Eq, PartialOrd, Ord)]
pub struct Moment(pub u64);

/// Sums within one quantity.
macro_rules! sums {
    ($($quantity:ident),*) => {$(
        impl Add for $quantity {
            type Output = $quantity;
            fn add(self, other: $quantity) -> $quantity {
                $quantity(self.0 + other.0)
            }
        }

        impl Sum for $quantity {
            fn sum<I: Iterator<Item = $quantity>>(all: I) -> $quantity {
                all.fold($quantity::default(), Add::add)
            }
        }
    )*};
}

sums!(Length, Area, Force, Moment);

impl Length {
    /// Half of an even length.
    pub fn half(self) -> Length {
        Length(self.0 / 2)
    }
}

impl Mul for Length {
    type Output = Area;

    fn mul(self, other: Length) -> Area {
        Area(u64::from(self.0) * u64::from(other.0))
    }
}

/// A force times its arm.
impl Mul<Length> for Force {
    type Output = Moment;

    fn mul(self, arm: Length) -> Moment {
        Moment(self.0 * u64::from(arm.0))
    }
}
