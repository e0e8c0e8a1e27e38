//! The refusals of document 01.

/// The refusals, each with its meaning as documentation and as text.
macro_rules! refusals {
    ($($name:ident = $number:literal, $meaning:literal;)*) => {
        /// Why a call is turned down. The answer is the number alone.
        #[derive(Clone, Copy, Debug, PartialEq, Eq, PartialOrd, Ord)]
        pub enum Refusal {
            $(#[doc = $meaning] $name = $number,)*
        }

        impl Refusal {
            /// All of them, by their numbers.
            pub const ALL: &'static [Refusal] = &[$(Refusal::$name,)*];

            /// Document 01's sentence.
            pub fn meaning(self) -> &'static str {
                match self {
                    $(Refusal::$name => $meaning,)*
                }
            }
        }
    };
}

refusals! {
    NoTower = 1, "Any call but erect and the C call finds no tower.";
    FileEnds = 2, "The file ends inside or before a field.";
    Legs = 3, "Legs are neither 3 nor 4.";
    SectionCount = 4, "Section count is 0 or above 32.";
    SectionSize = 5, "A section's width or height breaks its range, or the height is odd.";
    GroupCount = 6, "Group count is 0 or above 8.";
    GroupField = 7, "A group's kind, width or length breaks its range.";
    BareFaceOverfull = 8, "After a section's last group its bare A_S is above A_u.";
    ItemCount = 9, "The file's item count is above 64, or hang finds 64 items.";
    ItemNumber = 10, "The item number is already held, or came earlier in the same file.";
    ItemSection = 11, "The item's section does not exist.";
    ItemField = 12, "Another item field breaks its range.";
    BytesFollow = 13, "Bytes follow the last item, or the item count if that is 0.";
    NoSuchItem = 14, "Take down finds no such number.";
    Direction = 15, "k is above 23, or odd with three legs.";
    IceClass = 16, "Ice class is above 5.";
    StructureFactor = 17, "The structure factor breaks its range.";
    PressureCount = 18, "Pressures are not one per section (C call: not 2 bytes per section).";
    Pressure = 19, "A pressure is above 5 000.";
    IcedFaceOverfull = 20, "Some section's iced A_S is above A_u.";
    NoWind = 21, "Report or check finds no wind.";
    LentTooShort = 22, "The lent output has fewer elements than the answer fills.";
}

/// How many answers there are: 0 for an accepted call, and each refusal's number.
pub const ANSWERS: usize = Refusal::ALL.len() + 1;

impl Refusal {
    /// Document 01's number.
    pub fn number(self) -> u32 {
        self as u32
    }
}
