//! Numbers that look random but never change. Each depends on a key and a place
//! alone, so that their order is free.

use std::ops::RangeInclusive;

/// The factor of FNV-1a.
const FACTOR: u64 = 1_099_511_628_211;

/// As often is a number stirred until each of its bits depends on all of the key and
/// the place.
const STIRRINGS: usize = 4;

/// What numbers are drawn from.
#[derive(Clone, Copy, Debug, PartialEq, Eq)]
pub struct Key(pub u64);

impl Key {
    /// 64 bits.
    fn bits(self, place: u64) -> u64 {
        let mixed = (self.0 ^ place).wrapping_mul(FACTOR);
        (0..STIRRINGS).fold(mixed, |bits, _| (bits ^ (bits >> 29)).wrapping_mul(FACTOR))
    }

    /// The key of a part.
    pub fn part(self, place: u64) -> Key {
        Key(self.bits(place))
    }

    /// From the range.
    pub fn within(self, place: u64, range: RangeInclusive<u32>) -> u32 {
        let count = u64::from(range.end() - range.start()) + 1;
        range.start() + (self.bits(place) % count) as u32
    }

    /// True once in so many cases.
    pub fn once_in(self, place: u64, cases: u64) -> bool {
        self.bits(place).is_multiple_of(cases)
    }
}

/// A key whose fields are wrong once in so many cases, or never.
#[derive(Clone, Copy, Debug, PartialEq, Eq)]
pub struct Draws {
    /// What numbers are drawn from.
    pub key: Key,
    /// 0 is never.
    pub odds: u64,
}

impl Draws {
    /// The draws of a part, with the same odds.
    pub fn part(self, place: u64) -> Draws {
        let key = self.key.part(place);
        Draws { key, ..self }
    }

    /// Whether the field of this place is wrong.
    pub fn is_wrong(self, place: u64) -> bool {
        self.odds > 0 && self.key.part(place).once_in(0, self.odds)
    }

    /// A number of the range, or a wrong one.
    pub fn field(self, place: u64, range: RangeInclusive<u32>) -> u32 {
        let drawn = self.key.within(place, range.clone());
        self.or_wrong(place, drawn, range)
    }

    /// This number, or one outside the range: just below it, just above it, or the
    /// largest, which is the largest of each field's width.
    pub fn or_wrong(self, place: u64, number: u32, range: RangeInclusive<u32>) -> u32 {
        if !self.is_wrong(place) {
            return number;
        }
        match self.key.part(place).within(1, 0..=2) {
            0 if *range.start() > 0 => range.start() - 1,
            0 | 1 => range.end() + 1,
            _ => u32::MAX,
        }
    }
}
