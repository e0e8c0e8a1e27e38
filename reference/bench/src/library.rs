//! The proved libraries' functions.

use reference::tower::Wind;

/// The functions of a proved library.
pub trait Library: Copy + 'static {
    /// Those of this repository.
    const THIS: Self;
    /// Those of another checkout, if its library is linked.
    const BESIDE: Option<Self>;
    /// Functions that do nothing and answer 1.
    #[cfg(test)]
    const WRONG: Self;

    /// Whose they are.
    fn whose(&self) -> &'static str;

    /// Those of another checkout, if they are asked for.
    fn beside(asked: bool) -> Option<Self> {
        Self::BESIDE.filter(|_| asked)
    }

    /// Those of this repository, and of another checkout if they are asked for.
    #[cfg(test)]
    fn all(beside: bool) -> impl Iterator<Item = Self> {
        [Some(Self::THIS), Self::beside(beside)]
            .into_iter()
            .flatten()
    }
}

/// A struct of a library's functions by their names, and a type for those that take
/// the same. Of another checkout they are linked by names that end in `_beside`; it
/// may lack those in brackets, which stand there with their names as words.
macro_rules! library {
    (
        $(#[$about:meta])* $library:ident of $name:literal
        $(
            $(#[$takes:meta])* $kind:ident $arguments:tt:
            $($function:ident),+ $([$($late:ident $word:literal),+])?;
        )+
    ) => {
        $($(#[$takes])* type $kind = unsafe extern "C" fn $arguments -> u64;)+

        $(#[$about])*
        #[derive(Clone, Copy)]
        pub struct $library {
            whose: &'static str,
            $($($function: $kind,)+ $($($late: Option<$kind>,)+)?)+
        }

        impl Library for $library {
            const THIS: Self = {
                extern "C" {
                    $(
                        $(fn $function $arguments -> u64;)+
                        $($(fn $late $arguments -> u64;)+)?
                    )+
                }
                $library {
                    whose: "the library",
                    $($($function,)+ $($($late: Some($late),)+)?)+
                }
            };

            #[cfg(beside = $name)]
            const BESIDE: Option<Self> = {
                extern "C" {
                    $(
                        $(
                            #[link_name = concat!(stringify!($function), "_beside")]
                            fn $function $arguments -> u64;
                        )+
                        $($(
                            #[cfg(beside = $word)]
                            #[link_name = concat!($word, "_beside")]
                            fn $late $arguments -> u64;
                        )+)?
                    )+
                }
                Some($library {
                    whose: "the library beside",
                    $(
                        $($function,)+
                        $($(
                            #[cfg(beside = $word)]
                            $late: Some($late),
                            #[cfg(not(beside = $word))]
                            $late: None,
                        )+)?
                    )+
                })
            };
            #[cfg(not(beside = $name))]
            const BESIDE: Option<Self> = None;

            #[cfg(test)]
            const WRONG: Self = {
                $(
                    $(
                        #[allow(unused_variables)]
                        extern "C" fn $function $arguments -> u64 { 1 }
                    )+
                    $($(
                        #[allow(unused_variables)]
                        extern "C" fn $late $arguments -> u64 { 1 }
                    )+)?
                )+
                $library {
                    whose: "a wrong library",
                    $($($function,)+ $($($late: Some($late),)+)?)+
                }
            };

            fn whose(&self) -> &'static str {
                self.whose
            }
        }
    };
}

// A slice is a pointer, then its length.

library! {
    /// The function of a library on a section.
    Forces of "force_bench"
    /// Takes the words of a section and the rounds.
    OnWords(words: *const u64, count: usize, rounds: u64): force_bench;
}

impl Forces {
    /// The sum of so many forces modulo 2⁶⁴, or `u64::MAX` for words that are no
    /// section.
    pub fn sum(&self, words: &[u64], rounds: u64) -> u64 {
        // SAFETY: the pointer and the length are those of a slice that is only read.
        unsafe { (self.force_bench)(words.as_ptr(), words.len(), rounds) }
    }
}

library! {
    /// The functions of a library on a tower file.
    Files of "file_bench"
    /// Takes a tower file, the rounds and lent bytes.
    OnFile(file: *const u8, bytes: usize, rounds: u64, out: *mut u8, room: usize):
        read_bench, write_bench;
}

fn on_file(call: OnFile, file: &[u8], rounds: u64, out: &mut [u8]) -> u64 {
    let (bytes, room) = (file.len(), out.len());
    // SAFETY: the pointers and the lengths are those of two slices that do not
    // overlap; the first is only read.
    unsafe { call(file.as_ptr(), bytes, rounds, out.as_mut_ptr(), room) }
}

impl Files {
    /// Reads a tower file so many times and writes the last tower into `out`. The
    /// file's length, or `u64::MAX` if it is refused, does not fit or is never read.
    pub fn read(&self, file: &[u8], rounds: u64, out: &mut [u8]) -> u64 {
        on_file(self.read_bench, file, rounds, out)
    }

    /// Reads a tower file and writes its tower into `out` so many times. The same
    /// answers.
    pub fn write(&self, file: &[u8], rounds: u64, out: &mut [u8]) -> u64 {
        on_file(self.write_bench, file, rounds, out)
    }
}

extern "C" {
    fn byte_fields_bench(
        file: *const u8,
        bytes: usize,
        twos: *const u64,
        two_count: usize,
        fours: *const u64,
        four_count: usize,
        out: *mut u64,
        room: usize,
    ) -> u64;
    fn word_fields_bench(
        file: *const u8,
        bytes: usize,
        twos: *const u64,
        two_count: usize,
        fours: *const u64,
        four_count: usize,
        out: *mut u64,
        room: usize,
    ) -> u64;
}

/// A file, and places of fields of two bytes and of four in it.
#[derive(Clone, Copy)]
pub struct Fields<'a> {
    /// The file.
    pub file: &'a [u8],
    /// Where those of two bytes begin.
    pub twos: &'a [u64],
    /// Where those of four begin.
    pub fours: &'a [u64],
}

/// A function that takes a file, the places and lent numbers.
type OnFields = unsafe extern "C" fn(
    *const u8,
    usize,
    *const u64,
    usize,
    *const u64,
    usize,
    *mut u64,
    usize,
) -> u64;

fn on_fields(call: OnFields, fields: &Fields, out: &mut [u64]) -> u64 {
    let Fields { file, twos, fours } = fields;
    // SAFETY: the pointers and the lengths are those of four slices; the first
    // three are only read, and the last overlaps none of them.
    unsafe {
        call(
            file.as_ptr(),
            file.len(),
            twos.as_ptr(),
            twos.len(),
            fours.as_ptr(),
            fours.len(),
            out.as_mut_ptr(),
            out.len(),
        )
    }
}

/// Fetches the fields byte by byte and puts their numbers at the front of `out`,
/// those of two bytes first; `u64::MAX` for a place where fewer bytes remain. How
/// many they are, or `u64::MAX` if they do not fit.
pub fn byte_fields(fields: &Fields, out: &mut [u64]) -> u64 {
    on_fields(byte_fields_bench, fields, out)
}

/// Fetches each field as one number. The same numbers and answers.
pub fn word_fields(fields: &Fields, out: &mut [u64]) -> u64 {
    on_fields(word_fields_bench, fields, out)
}

library! {
    /// The functions of a library on a tower under a wind.
    Calls of "call_bench"
    /// Takes the tower, the wind, the rounds and lent numbers.
    OnReport(
        file: *const u8,
        bytes: usize,
        direction: u32,
        ice: u32,
        factor: u32,
        pressures: *const u16,
        sections: usize,
        rounds: u64,
        out: *mut u64,
        room: usize,
    ): report_bench [keep_bench "keep_bench"];
    /// Takes the tower, the wind and the rounds.
    OnWindy(
        file: *const u8,
        bytes: usize,
        direction: u32,
        ice: u32,
        factor: u32,
        pressures: *const u16,
        sections: usize,
        rounds: u64,
    ): hang_bench, erect_bench [first_down_bench "first_down_bench"];
}

/// A tower file that is erected on a fresh service, and the wind that is then set.
pub struct Windy<'a> {
    /// The file.
    pub file: &'a [u8],
    /// The wind.
    pub wind: &'a Wind,
}

fn on_windy(call: OnWindy, windy: &Windy, rounds: u64) -> u64 {
    let Windy { file, wind } = windy;
    let pressures = &wind.pressures;
    // SAFETY: the pointers and the lengths are those of two slices that are only
    // read.
    unsafe {
        call(
            file.as_ptr(),
            file.len(),
            wind.direction,
            wind.ice_class,
            wind.structure_factor,
            pressures.as_ptr(),
            pressures.len(),
            rounds,
        )
    }
}

fn on_report(call: OnReport, windy: &Windy, rounds: u64, out: &mut [u64]) -> u64 {
    let Windy { file, wind } = windy;
    let pressures = &wind.pressures;
    // SAFETY: the pointers and the lengths are those of three slices that do not
    // overlap; the first two are only read.
    unsafe {
        call(
            file.as_ptr(),
            file.len(),
            wind.direction,
            wind.ice_class,
            wind.structure_factor,
            pressures.as_ptr(),
            pressures.len(),
            rounds,
            out.as_mut_ptr(),
            out.len(),
        )
    }
}

impl Calls {
    /// Reports into `out` so many times. How many are accepted.
    pub fn report(&self, windy: &Windy, rounds: u64, out: &mut [u64]) -> u64 {
        on_report(self.report_bench, windy, rounds, out)
    }

    /// Copies the state so many times and reports once into `out` from the last
    /// copy. Whether that is accepted, as 1 or 0; nothing if the library lacks it.
    pub fn keep(&self, windy: &Windy, rounds: u64, out: &mut [u64]) -> Option<u64> {
        let call = |call| on_report(call, windy, rounds, out);
        self.keep_bench.map(call)
    }

    /// Hangs a dish and takes it down so many times. How many of the calls are
    /// accepted, two a round at the most.
    pub fn hang(&self, windy: &Windy, rounds: u64) -> u64 {
        on_windy(self.hang_bench, windy, rounds)
    }

    /// Takes down the item that was hung first, or a dish where none hangs, and
    /// hangs it again so many times. The same answers; nothing if the library
    /// lacks it.
    pub fn first_down(&self, windy: &Windy, rounds: u64) -> Option<u64> {
        let call = |call| on_windy(call, windy, rounds);
        self.first_down_bench.map(call)
    }

    /// Erects the file so many times more. How many of the calls are accepted.
    pub fn erect(&self, windy: &Windy, rounds: u64) -> u64 {
        on_windy(self.erect_bench, windy, rounds)
    }
}
