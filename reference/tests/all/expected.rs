//! The program that writes or compares expected outputs.

use crate::common::run_program;
use reference::expected::{parse, run, Command, USAGE};
use reference::outputs::{Generator, OutputFile, GENERATORS};
use std::fs;
use std::path::{Path, PathBuf};
use std::process;

/// A folder of its own for one test, removed at the end.
struct Folder(PathBuf);

impl Folder {
    /// With these programs under `crates`.
    fn with_programs(test: &str, programs: &[&str]) -> Folder {
        let name = format!("reference-{}-{test}", process::id());
        let folder = Folder(std::env::temp_dir().join(name));
        for program in programs {
            let source = folder.0.join("crates").join(program).join("src");
            fs::create_dir_all(&source).expect("a folder");
            fs::write(source.join("main.rt"), "").expect("a program");
        }
        folder
    }

    fn file(&self, name: &str) -> PathBuf {
        self.0.join("crates").join(name)
    }

    fn check(&self) -> Vec<String> {
        run(&self.0, TABLE, true).expect("readable")
    }

    fn write(&self) -> Vec<String> {
        run(&self.0, TABLE, false).expect("writable")
    }
}

impl Drop for Folder {
    fn drop(&mut self) {
        let _ = fs::remove_dir_all(&self.0);
    }
}

fn file(name: &'static str, bytes: &[u8]) -> OutputFile {
    OutputFile {
        name,
        bytes: bytes.to_vec(),
    }
}

const TABLE: &[Generator] = &[
    Generator {
        program: "speaks",
        files: || vec![file("stdout", b"one\ntwo\n")],
    },
    Generator {
        program: "listens",
        files: || vec![file("stdin", b"\x04\x01"), file("stdout", b"0\n")],
    },
];

const BOTH: &[&str] = &["speaks", "listens"];

#[test]
fn what_is_written_is_as_expected() {
    let folder = Folder::with_programs("equal", BOTH);
    assert_eq!(folder.write(), [""; 0]);
    assert_eq!(
        fs::read(folder.file("speaks/stdout")).unwrap(),
        b"one\ntwo\n"
    );
    assert_eq!(fs::read(folder.file("listens/stdin")).unwrap(), b"\x04\x01");
    assert_eq!(fs::read(folder.file("listens/stdout")).unwrap(), b"0\n");
    assert!(!folder.file("speaks/stdin").exists());
    assert_eq!(folder.check(), [""; 0]);
}

#[test]
fn a_difference_is_shown_with_its_place_and_not_repaired() {
    let folder = Folder::with_programs("differs", BOTH);
    assert_eq!(folder.write(), [""; 0]);
    let shown = |rest| format!("crates/speaks/stdout: differs first at {rest}, 8 expected)");
    let cases: [(&[u8], &str); 4] = [
        (b"one\ntwO\n", "byte 6, line 2 (8 bytes found"),
        (b"One\ntwo\n", "byte 0, line 1 (8 bytes found"),
        (b"one\ntwo", "byte 7, line 2 (7 bytes found"),
        (b"one\ntwo\n\n", "byte 8, line 3 (9 bytes found"),
    ];
    for (found, place) in cases {
        fs::write(folder.file("speaks/stdout"), found).unwrap();
        assert_eq!(folder.check(), [shown(place)]);
        assert_eq!(fs::read(folder.file("speaks/stdout")).unwrap(), found);
    }
    assert_eq!(folder.write(), [""; 0]);
    assert_eq!(folder.check(), [""; 0]);
}

#[test]
fn a_missing_file_is_a_fault_and_is_not_made() {
    let folder = Folder::with_programs("missing", BOTH);
    assert_eq!(folder.write(), [""; 0]);
    fs::remove_file(folder.file("listens/stdin")).unwrap();
    assert_eq!(folder.check(), ["crates/listens/stdin: missing"]);
    assert!(!folder.file("listens/stdin").exists());
}

#[test]
fn a_program_without_an_entry_is_a_fault_both_ways() {
    let folder = Folder::with_programs("uncovered", &["speaks", "listens", "new", "also"]);
    let faults = [
        "crates/also: a program without an expected output",
        "crates/new: a program without an expected output",
    ];
    assert_eq!(folder.write(), faults);
    assert_eq!(folder.check(), faults);
}

#[test]
fn a_crate_that_is_no_program_needs_no_entry() {
    let folder = Folder::with_programs("library", BOTH);
    let source = folder.file("library/src");
    fs::create_dir_all(&source).unwrap();
    fs::write(source.join("lib.rt"), "").unwrap();
    fs::write(folder.file("notes"), "").unwrap();
    assert_eq!(folder.write(), [""; 0]);
    assert_eq!(folder.check(), [""; 0]);
}

#[test]
fn an_entry_without_its_folder_is_a_fault_both_ways() {
    let folder = Folder::with_programs("no-folder", &["speaks"]);
    assert_eq!(folder.write(), ["crates/listens: no such folder"]);
    assert!(!folder.file("listens").exists());
    let missing = ["stdin", "stdout"].map(|name| format!("crates/listens/{name}: missing"));
    assert_eq!(folder.check(), missing);
}

#[test]
fn an_entry_without_a_stdout_is_a_fault() {
    let folder = Folder::with_programs("no-stdout", &["mute"]);
    let table = [Generator {
        program: "mute",
        files: || vec![file("stdin", b"1")],
    }];
    let faults = ["crates/mute: no stdout in the table"];
    assert_eq!(run(&folder.0, &table, false).unwrap(), faults);
    assert_eq!(run(&folder.0, &table, true).unwrap(), faults);
}

#[test]
fn a_root_that_is_no_folder_is_a_fault() {
    let root = Path::new("no").join("such").join("root");
    let faults = run(&root, &[], true).unwrap();
    assert_eq!(faults, [format!("{}: no such folder", root.display())]);
}

fn words(line: &str) -> Vec<String> {
    line.split_whitespace().map(String::from).collect()
}

#[test]
fn the_command_line() {
    let runs = |check, root: Option<&str>| {
        let root = root.map(PathBuf::from);
        Ok(Command::Run { check, root })
    };
    assert_eq!(parse(&words("")), runs(false, None));
    assert_eq!(parse(&words("--check")), runs(true, None));
    assert_eq!(
        parse(&words("--root here --check")),
        runs(true, Some("here"))
    );
    assert_eq!(parse(&words("--help")), Ok(Command::Help));
    assert_eq!(parse(&words("check")), Err("unknown word: check".into()));
    assert_eq!(parse(&words("--root")), Err("--root needs a folder".into()));
}

/// Runs the binary itself.
fn expected(line: &str) -> (Option<i32>, String, String) {
    let words: Vec<&str> = line.split_whitespace().collect();
    run_program(env!("CARGO_BIN_EXE_expected"), &words)
}

#[test]
fn the_program_answers_with_its_status() {
    assert_eq!(expected("--help"), (Some(0), USAGE.into(), String::new()));
    let (status, stdout, stderr) = expected("--what");
    assert_eq!((status, stdout.as_str()), (Some(2), ""));
    assert!(stderr.contains("--what") && stderr.contains(USAGE));
    let folder = Folder::with_programs("binary", &["uncovered"]);
    for mode in ["", "--check "] {
        let (status, _, stderr) = expected(&format!("{mode}--root {}", folder.0.display()));
        assert_eq!(status, Some(1));
        assert!(stderr.contains("crates/uncovered: a program without"));
    }
}

#[test]
fn the_program_writes_and_compares_its_own_table() {
    let programs: Vec<&str> = GENERATORS.iter().map(|entry| entry.program).collect();
    let folder = Folder::with_programs("own", &programs);
    let root = format!("--root {}", folder.0.display());
    let (status, _, stderr) = expected(&format!("--check {root}"));
    assert_eq!(status, Some(1));
    for program in &programs {
        assert!(stderr.contains(&format!("crates/{program}/stdout: missing")));
    }
    assert_eq!(expected(&root).0, Some(0));
    assert_eq!(expected(&format!("--check {root}")).0, Some(0));
}
