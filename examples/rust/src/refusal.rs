//! Why a tower or a wind is refused.

use std::error::Error;
use std::fmt;

/// The refusals, each with its meaning as documentation and as text.
macro_rules! refusals {
    ($($name:ident = $number:literal, $meaning:literal;)*) => {
        /// Why a tower or a wind is refused.
        #[derive(Clone, Copy, Debug, PartialEq, Eq)]
        pub enum Refusal {
            $(#[doc = $meaning] $name = $number,)*
        }

        impl Refusal {
            /// All that the call can answer.
            pub const ALL: &'static [Refusal] = &[$(Refusal::$name,)*];
        }

        impl fmt::Display for Refusal {
            fn fmt(&self, out: &mut fmt::Formatter) -> fmt::Result {
                out.write_str(match self {
                    $(Refusal::$name => $meaning,)*
                })
            }
        }
    };
}

refusals! {
    FileEnds = 2, "the file ends inside or before a field";
    Legs = 3, "legs are neither 3 nor 4";
    SectionCount = 4, "section count is 0 or above 32";
    SectionSize = 5, "a section's width or height breaks its range, or the height is odd";
    GroupCount = 6, "group count is 0 or above 8";
    GroupField = 7, "a group's kind, width or length breaks its range";
    BareFaceOverfull = 8, "a section's bare A_S is above A_u";
    ItemCount = 9, "item count is above 64";
    ItemNumber = 10, "an item number came earlier in the file";
    ItemSection = 11, "an item's section does not exist";
    ItemField = 12, "another item field breaks its range";
    BytesFollow = 13, "bytes follow the last item";
    Direction = 15, "k is above 23, or odd with three legs";
    IceClass = 16, "ice class is above 5";
    StructureFactor = 17, "the structure factor is not 500 to 2000";
    PressureCount = 18, "pressures are not one per section";
    Pressure = 19, "a pressure is above 5000";
    IcedFaceOverfull = 20, "some section's iced A_S is above A_u";
}

impl Error for Refusal {}

impl Refusal {
    /// Document 01's number.
    pub fn number(self) -> u32 {
        self as u32
    }

    /// The refusal of an answer, or none for 0. There is always room for the rows,
    /// so that 22 is not among them.
    pub(crate) fn of(answer: u32) -> Option<Refusal> {
        if answer == 0 {
            return None;
        }
        let mut all = Refusal::ALL.iter().copied();
        let found = all.find(|refusal| refusal.number() == answer);
        Some(found.unwrap_or_else(|| panic!("the call is proved not to answer {answer}")))
    }
}
