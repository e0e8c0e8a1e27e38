//! Writes the expected output of the programs, or compares it.

use reference::expected::{parse, run, Command, USAGE};
use reference::outputs::GENERATORS;
use std::path::{Path, PathBuf};
use std::process::ExitCode;

fn main() -> ExitCode {
    let words: Vec<String> = std::env::args_os()
        .skip(1)
        .map(|word| word.to_string_lossy().into_owned())
        .collect();
    match parse(&words) {
        Ok(Command::Help) => {
            print!("{USAGE}");
            ExitCode::SUCCESS
        }
        Ok(Command::Run { check, root }) => answer(&root.unwrap_or_else(default_root), check),
        Err(wrong) => {
            eprint!("expected: {wrong}\n{USAGE}");
            ExitCode::from(2)
        }
    }
}

/// The folder above this crate.
fn default_root() -> PathBuf {
    Path::new(env!("CARGO_MANIFEST_DIR")).join("..")
}

fn answer(root: &Path, check: bool) -> ExitCode {
    let faults = match run(root, GENERATORS, check) {
        Ok(faults) => faults,
        Err(error) => vec![error.to_string()],
    };
    for fault in &faults {
        eprintln!("expected: {fault}");
    }
    if faults.is_empty() {
        let done = if check { "as expected" } else { "written" };
        println!("expected: {} programs {done}", GENERATORS.len());
        ExitCode::SUCCESS
    } else {
        ExitCode::FAILURE
    }
}
