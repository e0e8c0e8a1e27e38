//! Turns the description of a tower into its file and back.

use reference::description::command::{answer, parse, Command, Output, USAGE};
use std::fs;
use std::io::{self, IsTerminal, Read, Write};
use std::process::ExitCode;

fn main() -> ExitCode {
    let words: Vec<String> = std::env::args_os()
        .skip(1)
        .map(|word| word.to_string_lossy().into_owned())
        .collect();
    match parse(&words) {
        Ok(Command::Help) => {
            print!("{USAGE}");
            ExitCode::SUCCESS
        }
        Ok(Command::Print(Output::File, _)) if io::stdout().is_terminal() => {
            usage("a tower file is not for a terminal; add > FILE")
        }
        Ok(Command::Print(output, name)) => match print(output, &name) {
            Ok(()) => ExitCode::SUCCESS,
            Err(wrong) => {
                eprintln!("describe: {wrong}");
                ExitCode::FAILURE
            }
        },
        Err(wrong) => usage(&wrong),
    }
}

fn usage(wrong: &str) -> ExitCode {
    eprintln!("describe: {wrong}\ndescribe: see describe --help");
    ExitCode::from(2)
}

/// Prints what is asked for, or says what is wrong and where.
fn print(output: Output, name: &str) -> Result<(), String> {
    let (shown, input) = if name == "-" {
        let mut input = Vec::new();
        let read = io::stdin().read_to_end(&mut input);
        ("standard input", read.map(|_| input))
    } else {
        (name, fs::read(name))
    };
    let input = input.map_err(|error| format!("{shown}: {error}"))?;
    let printed = answer(output, &input).map_err(|wrong| format!("{shown}: {wrong}"))?;
    let mut out = io::stdout();
    let written = out.write_all(&printed).and_then(|()| out.flush());
    written.map_err(|error| format!("standard output: {error}"))
}
