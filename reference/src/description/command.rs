//! The command line of `describe`.

use super::{file_of, refused, text_of};
use crate::file;

/// What the program prints for `--help`.
pub const USAGE: &str = "\
usage: describe file TEXT > FILE    the tower file of a description
       describe hex TEXT            the same in hexadecimal, on one line
       describe text FILE > TEXT    the description of a tower file
       describe --help

TEXT and FILE name a file; - is standard input. Status 0: done. Status 1: it
cannot be read or written, it is no description, or document 01 turns the tower
down; then the line and what is wrong, or the refusal's number and meaning, are
on standard error. Status 2: the words on the command line are wrong.

A description has one line for each of these, in this order; # begins a comment:

  # 3 or 4
  legs 3
  # 1 to 32 sections from the top, numbered from 0: mean width 100 to 15000;
  # height 100 to 10000, even; shear allowance at the foot, or 'none'
  section 0  width 1200 mm  height 5000 mm  allowance 9000 N
  # below each section 1 to 8 groups of one face: diameter of round or width of
  # flat members, 1 to 1000; their total length, 1 to 200000
  round 76 mm  length 10000 mm
  flat 60 mm  length 2400 mm
  # 0 to 64 items in hanging order: number 0 to 65535; width 1 to 3000; length 1
  # to 10000; force coefficient bare and iced, 0 to 3; position factor K, 0 to 1
  item 101  section 0  width 300 mm  length 2000 mm  bare 1.250  iced 1.4  K 0.9
";

/// What is printed.
#[derive(Clone, Copy, Debug, PartialEq, Eq)]
pub enum Output {
    /// The tower file of a description.
    File,
    /// The same in hexadecimal.
    Hexadecimal,
    /// The description of a tower file.
    Text,
}

/// What the words on the command line ask for.
#[derive(Clone, Debug, PartialEq, Eq)]
pub enum Command {
    /// Print the usage.
    Help,
    /// Print this of the named input.
    Print(Output, String),
}

/// Reads the command line, or says what is wrong with it.
pub fn parse(words: &[String]) -> Result<Command, String> {
    let words: Vec<&str> = words.iter().map(String::as_str).collect();
    let (word, rest) = words.split_first().ok_or("a word is missing")?;
    let output = match *word {
        "--help" if rest.is_empty() => return Ok(Command::Help),
        "--help" => return Err("nothing may follow --help".to_string()),
        "file" => Output::File,
        "hex" => Output::Hexadecimal,
        "text" => Output::Text,
        other => return Err(format!("unknown word: {other}")),
    };
    match rest {
        [name] => Ok(Command::Print(output, name.to_string())),
        [] => Err(format!("{word} needs the name of a file, or -")),
        _ => Err(format!("{word} takes one name")),
    }
}

/// What is printed for this input, or what is wrong with it.
pub fn answer(output: Output, input: &[u8]) -> Result<Vec<u8>, String> {
    match output {
        Output::File => file_of(input).map_err(|wrong| wrong.to_string()),
        Output::Hexadecimal => {
            let file = file_of(input).map_err(|wrong| wrong.to_string())?;
            let digits: String = file.iter().map(|byte| format!("{byte:02x}")).collect();
            Ok((digits + "\n").into_bytes())
        }
        Output::Text => match file::read(input) {
            Ok(tower) => Ok(text_of(&tower).into_bytes()),
            Err(refusal) => Err(refused(refusal)),
        },
    }
}
