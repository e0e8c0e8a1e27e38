//! Tests of the words on the command line.

use crate::words::{parse, Command, Parts, Run, USAGE};

/// The words where the libraries beside of these parts are linked.
fn linked_words(line: &str, linked: Parts) -> Result<Command, String> {
    let words: Vec<String> = line.split_whitespace().map(String::from).collect();
    parse(&words, linked)
}

fn words(line: &str) -> Result<Command, String> {
    linked_words(line, NONE)
}

fn run(parts: Parts, each: bool, towerd: &str) -> Result<Command, String> {
    Ok(Command::Run(Run {
        parts,
        each,
        beside: false,
        changed: false,
        towerd: towerd.to_string(),
    }))
}

const NONE: Parts = Parts {
    force: false,
    file: false,
    calls: false,
    pipe: false,
};

#[test]
fn the_words_choose() {
    let (force, file) = (
        Parts {
            force: true,
            ..NONE
        },
        Parts { file: true, ..NONE },
    );
    let (calls, pipe) = (
        Parts {
            calls: true,
            ..NONE
        },
        Parts { pipe: true, ..NONE },
    );
    assert_eq!(words("force"), run(force, false, ""));
    assert_eq!(words("file"), run(file, false, ""));
    assert_eq!(words("file --each"), run(file, true, ""));
    assert_eq!(words("--each calls"), run(calls, true, ""));
    assert_eq!(words("calls --towerd p"), run(calls, false, "p"));
    assert_eq!(words("pipe --towerd p"), run(pipe, false, "p"));
    let both = Parts {
        calls: true,
        ..file
    };
    assert_eq!(words("calls file"), run(both, false, ""));
    assert_eq!(words("--towerd a/b"), run(Parts::ALL, false, "a/b"));
    assert_eq!(words("--each --towerd a/b"), run(Parts::ALL, true, "a/b"));
}

fn run_beside(parts: Parts, each: bool, towerd: &str) -> Result<Command, String> {
    Ok(Command::Run(Run {
        parts,
        each,
        beside: true,
        changed: false,
        towerd: towerd.to_string(),
    }))
}

#[test]
fn the_libraries_beside_go_with_what_calls_them() {
    let file = Parts { file: true, ..NONE };
    let (force, calls) = (
        Parts {
            force: true,
            ..NONE
        },
        Parts {
            calls: true,
            ..NONE
        },
    );
    let linked = |line| linked_words(line, Parts::ALL);
    assert_eq!(linked("force --beside"), run_beside(force, false, ""));
    assert_eq!(linked("file --beside"), run_beside(file, false, ""));
    assert_eq!(linked("--beside --each calls"), run_beside(calls, true, ""));
    let all = run_beside(Parts::ALL, false, "p");
    assert_eq!(linked("--beside --towerd p"), all);
    let piped = Parts {
        pipe: true,
        ..calls
    };
    let both = run_beside(piped, false, "p");
    assert_eq!(linked("pipe calls --beside --towerd p"), both);
    assert_eq!(linked("file"), run(file, false, ""));
    let alone = Err("--beside goes with force, file or calls".into());
    assert_eq!(linked("pipe --beside --towerd p"), alone);
}

#[test]
fn the_libraries_beside_must_be_linked() {
    let file = Parts { file: true, ..NONE };
    let linked = |line| linked_words(line, file);
    assert_eq!(linked("file --beside"), run_beside(file, false, ""));
    let missing = |part: &str| {
        let run = format!("reference/benchmark {part} --beside FOLDER");
        Err(format!("no library beside is linked: {run}"))
    };
    assert_eq!(linked("force --beside"), missing("force"));
    assert_eq!(linked("file calls --beside"), missing("calls"));
    assert_eq!(linked("--beside --towerd p"), missing("force"));
    assert_eq!(words("file --beside"), missing("file"));
    assert_eq!(linked("calls"), words("calls"));
}

#[test]
fn changed_goes_with_the_libraries_beside() {
    let linked = |line| linked_words(line, Parts::ALL);
    let changed = |line| match linked(line) {
        Ok(Command::Run(run)) => (run.beside, run.changed),
        other => panic!("{line}: {other:?}"),
    };
    assert_eq!(changed("force --beside --changed"), (true, true));
    assert_eq!(changed("--changed calls --beside"), (true, true));
    assert_eq!(changed("file --beside"), (true, false));
    let alone = Err("--changed goes with --beside".into());
    assert_eq!(linked("force --changed"), alone);
    assert_eq!(words("--changed file"), alone);
    let nothing = Err("--beside goes with force, file or calls".into());
    assert_eq!(linked("pipe --towerd p --beside --changed"), nothing);
    assert!(USAGE.contains("\n  --changed         with --beside: "));
}

#[test]
fn the_words_may_be_wrong_or_ask_for_help() {
    assert_eq!(words("file --help"), Ok(Command::Help));
    assert_eq!(words("files"), Err("unknown word: files".into()));
    let unnamed = Err("pipe needs --towerd PROGRAM".into());
    assert_eq!(words("pipe"), unnamed);
    assert_eq!(words(""), unnamed);
    let missing = Err("--towerd names no program".into());
    assert_eq!(words("pipe --towerd"), missing);
    let first = "usage: bench [force] [file] [calls] [pipe] [--each] [--beside [--changed]]\n";
    assert!(USAGE.starts_with(first));
}
