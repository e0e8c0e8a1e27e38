//! Writes or compares the expected output of the programs under `crates`.

use crate::outputs::{Generator, OutputFile};
use std::collections::BTreeSet;
use std::fs;
use std::io;
use std::path::{Path, PathBuf};

/// What the program prints for `--help`.
pub const USAGE: &str = "\
usage: expected [--check] [--root DIR]
       expected --help

Writes the expected output of each program, crates/NAME/stdout and where
wanted crates/NAME/stdin. With --check it writes nothing and compares.
A program without an expected output is a failure both ways.

  --check     compare only; status 1 if a file differs or is missing
  --root DIR  the repository's root (default: the folder above this crate)
  --help      print this
";

/// What the words on the command line ask for.
#[derive(Clone, Debug, PartialEq, Eq)]
pub enum Command {
    /// Print the usage.
    Help,
    /// Write or compare below a root, or below the default one.
    Run {
        /// Compare only.
        check: bool,
        /// The root that was named.
        root: Option<PathBuf>,
    },
}

/// Reads the command line, or says what is wrong with it.
pub fn parse(words: &[String]) -> Result<Command, String> {
    let (mut check, mut root) = (false, None);
    let mut words = words.iter();
    while let Some(word) = words.next() {
        match word.as_str() {
            "--help" => return Ok(Command::Help),
            "--check" => check = true,
            "--root" => match words.next() {
                Some(folder) => root = Some(PathBuf::from(folder)),
                None => return Err("--root needs a folder".to_string()),
            },
            other => return Err(format!("unknown word: {other}")),
        }
    }
    Ok(Command::Run { check, root })
}

/// Writes the files, or only compares them. Answers what is wrong; nothing is
/// exactly if all is well.
pub fn run(root: &Path, table: &[Generator], check: bool) -> io::Result<Vec<String>> {
    if !root.is_dir() {
        return Ok(vec![format!("{}: no such folder", root.display())]);
    }
    let mut faults = uncovered(root, table)?;
    for generator in table {
        let folder = root.join("crates").join(generator.program);
        let files = (generator.files)();
        if !files.iter().any(|file| file.name == "stdout") {
            faults.push(format!(
                "crates/{}: no stdout in the table",
                generator.program
            ));
        }
        if !check && !folder.is_dir() {
            faults.push(format!("crates/{}: no such folder", generator.program));
            continue;
        }
        for file in &files {
            let path = folder.join(file.name);
            if check {
                faults.extend(compare(generator.program, file, &path)?);
            } else {
                fs::write(path, &file.bytes)?;
            }
        }
    }
    Ok(faults)
}

/// Programs (folders with src/main.rt) that have no entry in the table.
fn uncovered(root: &Path, table: &[Generator]) -> io::Result<Vec<String>> {
    let crates = root.join("crates");
    let mut programs = BTreeSet::new();
    if crates.is_dir() {
        for entry in fs::read_dir(crates)? {
            let entry = entry?;
            if entry.path().join("src").join("main.rt").exists() {
                programs.insert(entry.file_name().to_string_lossy().into_owned());
            }
        }
    }
    let covered = |name: &String| table.iter().any(|entry| entry.program == name);
    let without = programs.into_iter().filter(|name| !covered(name));
    Ok(without
        .map(|name| format!("crates/{name}: a program without an expected output"))
        .collect())
}

/// What is wrong with one file, if anything.
fn compare(program: &str, file: &OutputFile, path: &Path) -> io::Result<Option<String>> {
    let shown = format!("crates/{program}/{}", file.name);
    let found = match fs::read(path) {
        Ok(found) => found,
        Err(error) if error.kind() == io::ErrorKind::NotFound => {
            return Ok(Some(format!("{shown}: missing")));
        }
        Err(error) => return Err(error),
    };
    if found == file.bytes {
        return Ok(None);
    }
    let pairs = found.iter().zip(&file.bytes);
    let same = pairs.take_while(|(left, right)| left == right).count();
    let line = 1 + found[..same].iter().filter(|&&byte| byte == b'\n').count();
    Ok(Some(format!(
        "{shown}: differs first at byte {same}, line {line} ({} bytes found, {} expected)",
        found.len(),
        file.bytes.len()
    )))
}
