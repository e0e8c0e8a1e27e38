//! The table of expected outputs, one entry per program crate.

use crate::{cases, file_cases, lists, request_lists, transcript};

/// One file of a program's folder.
#[derive(Clone, Debug, PartialEq, Eq)]
pub struct OutputFile {
    /// `stdout`, or `stdin` where the program reads.
    pub name: &'static str,
    /// All of its bytes.
    pub bytes: Vec<u8>,
}

/// What a program is given and has to print.
#[derive(Clone, Copy, Debug)]
pub struct Generator {
    /// The program's folder under `crates`.
    pub program: &'static str,
    /// Its files; `stdout` is always among them.
    pub files: fn() -> Vec<OutputFile>,
}

/// All programs with an expected output.
pub const GENERATORS: &[Generator] = &[
    Generator {
        program: "force_cases",
        files: cases::files,
    },
    Generator {
        program: "file_cases",
        files: file_cases::files,
    },
    Generator {
        program: "towerd",
        files: request_lists::files,
    },
    Generator {
        program: "samples",
        files: transcript::files,
    },
    Generator {
        program: "lists",
        files: lists::files,
    },
];
