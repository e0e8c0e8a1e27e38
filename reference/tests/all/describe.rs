//! The program `describe`.

use crate::common::run_program;
use reference::description::command::{parse, Command, Output, USAGE};
use reference::description::text_of;
use reference::file::write;
use reference::file_cases::triangle;
use std::fs;
use std::io::Write;
use std::path::PathBuf;
use std::process::{self, Stdio};

const PROGRAM: &str = env!("CARGO_BIN_EXE_describe");

/// A file of its own for one test, removed at the end.
struct Input(PathBuf);

impl Input {
    fn of(name: &str, bytes: &[u8]) -> Input {
        let name = format!("reference-{}-{name}", process::id());
        let path = std::env::temp_dir().join(name);
        fs::write(&path, bytes).expect("a file");
        Input(path)
    }

    fn name(&self) -> &str {
        self.0.to_str().expect("a name")
    }
}

impl Drop for Input {
    fn drop(&mut self) {
        let _ = fs::remove_file(&self.0);
    }
}

fn parsed(words: &[&str]) -> Result<Command, String> {
    let words: Vec<String> = words.iter().map(|word| word.to_string()).collect();
    parse(&words)
}

/// Runs the program on standard input; its status and standard output.
fn piped(words: &[&str], input: &[u8]) -> (Option<i32>, Vec<u8>) {
    let mut child = process::Command::new(PROGRAM)
        .args(words)
        .stdin(Stdio::piped())
        .stdout(Stdio::piped())
        .spawn()
        .expect("the program runs");
    let mut stdin = child.stdin.take().expect("a pipe");
    stdin.write_all(input).expect("it reads");
    drop(stdin);
    let output = child.wait_with_output().expect("it ends");
    (output.status.code(), output.stdout)
}

#[test]
fn the_words_of_the_command_line() {
    let print = |output| Ok(Command::Print(output, "x".to_string()));
    assert_eq!(parsed(&["file", "x"]), print(Output::File));
    assert_eq!(parsed(&["hex", "x"]), print(Output::Hexadecimal));
    assert_eq!(parsed(&["text", "x"]), print(Output::Text));
    assert_eq!(parsed(&["--help"]), Ok(Command::Help));
    let wrong = |words| parsed(words).expect_err("wrong words");
    assert_eq!(wrong(&[]), "a word is missing");
    assert_eq!(wrong(&["files"]), "unknown word: files");
    assert_eq!(wrong(&["file"]), "file needs the name of a file, or -");
    assert_eq!(wrong(&["text", "x", "y"]), "text takes one name");
    assert_eq!(wrong(&["--help", "x"]), "nothing may follow --help");
}

#[test]
fn the_example_of_the_usage_is_a_description() {
    let (_, example) = USAGE.split_once("begins a comment:\n").expect("an example");
    let (status, hex) = piped(&["hex", "-"], example.as_bytes());
    assert_eq!(status, Some(0));
    assert!(hex.starts_with(b"030104b01388000023280201004c"));
    assert!(hex.ends_with(b"01006500012c07d004e205780384\n"));
}

#[test]
fn there_and_back_through_the_program() {
    let (text, file) = (text_of(&triangle()).into_bytes(), write(&triangle()));
    let digits: String = file.iter().map(|byte| format!("{byte:02x}")).collect();
    assert_eq!(piped(&["file", "-"], &text), (Some(0), file.clone()));
    assert_eq!(piped(&["text", "-"], &file), (Some(0), text.clone()));
    let input = Input::of("triangle.txt", &text);
    let hex = run_program(PROGRAM, &["hex", input.name()]);
    assert_eq!(hex, (Some(0), digits + "\n", String::new()));
}

#[test]
fn a_bad_description_is_told_with_file_line_and_fault() {
    let input = Input::of("bad.txt", b"legs 3\nsection 0 width 1 m\n");
    for word in ["file", "hex"] {
        let (status, out, wrong) = run_program(PROGRAM, &[word, input.name()]);
        assert_eq!((status, out.as_str()), (Some(1), ""));
        let fault = "line 2: 'mm' is due after '1', not 'm'";
        assert_eq!(wrong, format!("describe: {}: {fault}\n", input.name()));
    }
}

#[test]
fn a_bad_file_is_told_with_the_refusal() {
    let file = write(&triangle());
    let input = Input::of("cut.tower", &file[..file.len() - 1]);
    let (status, out, wrong) = run_program(PROGRAM, &["text", input.name()]);
    assert_eq!((status, out.as_str()), (Some(1), ""));
    let fault = "refused 2: The file ends inside or before a field.";
    assert_eq!(wrong, format!("describe: {}: {fault}\n", input.name()));
}

#[test]
fn a_missing_file_and_wrong_words() {
    let (status, out, wrong) = run_program(PROGRAM, &["text", "no/such.tower"]);
    assert_eq!((status, out.as_str()), (Some(1), ""));
    assert!(wrong.starts_with("describe: no/such.tower: "), "{wrong}");
    let (status, out, wrong) = run_program(PROGRAM, &["texts", "x"]);
    assert_eq!((status, out.as_str()), (Some(2), ""));
    assert_eq!(
        wrong,
        "describe: unknown word: texts\ndescribe: see describe --help\n"
    );
    let help = run_program(PROGRAM, &["--help"]);
    assert_eq!(help, (Some(0), USAGE.to_string(), String::new()));
}
