//! Prints the report of a tower file under a wind as a table.

use dembyhai::{report, Row, Wind, MAX_FILE_BYTES};
use std::fmt::Write as _;
use std::fs::File;
use std::io::{self, Read, Write};
use std::process::ExitCode;

const USAGE: &str = "\
usage: report FILE K ICE FACTOR PRESSURE...
       report --help

Prints areas, force, shear and moment of each section of a tower under wind.

  FILE      a tower file
  K         wind direction, 0 to 23, 15 degrees each; even with three legs
  ICE       ice class, 0 (bare) to 5
  FACTOR    structure factor in thousandths, 500 to 2000
  PRESSURE  in N/m2, 0 to 5000: one for each section from the top, or one
            for all

Status 0: the table is printed. 1: the file cannot be read, or the tower or
the wind is refused. 2: the words are wrong.
";

/// What ends the program before its table is printed.
enum Fault {
    /// The words on the command line are wrong.
    Words(String),
    /// The file cannot be read, or the call refuses it or the wind.
    Refused(String),
}

fn main() -> ExitCode {
    let words: Vec<String> = std::env::args_os()
        .skip(1)
        .map(|word| word.to_string_lossy().into_owned())
        .collect();
    let printed = if words == ["--help"] {
        Ok(USAGE.to_string())
    } else {
        table_of(&words)
    };
    match printed.and_then(|text| print(&text)) {
        Ok(()) => ExitCode::SUCCESS,
        Err(Fault::Refused(wrong)) => {
            eprintln!("report: {wrong}");
            ExitCode::FAILURE
        }
        Err(Fault::Words(wrong)) => {
            eprintln!("report: {wrong}\nreport: see report --help");
            ExitCode::from(2)
        }
    }
}

/// The table that the words ask for.
fn table_of(words: &[String]) -> Result<String, Fault> {
    let [name, k, ice, factor, pressures @ ..] = words else {
        return Err(missing());
    };
    if pressures.is_empty() {
        return Err(missing());
    }
    let mut wind = Wind {
        direction: number("K", k, u32::MAX)?,
        ice_class: number("ICE", ice, u32::MAX)?,
        structure_factor: number("FACTOR", factor, u32::MAX)?,
        pressures: Vec::new(),
    };
    for pressure in pressures {
        let pressure = number("PRESSURE", pressure, u16::MAX.into())?;
        wind.pressures.push(pressure as u16);
    }
    let file = read_file(name)?;
    if let (&[for_all], &[_, sections, ..]) = (&wind.pressures[..], &file[..]) {
        wind.pressures = vec![for_all; sections.into()];
    }
    match report(&file, &wind) {
        Ok(rows) => Ok(table(name, &wind, &rows)),
        Err(refusal) => {
            let number = refusal.number();
            let wrong = format!("{name}: refused {number}: {refusal}");
            Err(Fault::Refused(wrong))
        }
    }
}

fn missing() -> Fault {
    Fault::Words("FILE, K, ICE, FACTOR and PRESSURE are needed".to_string())
}

/// Decimal digits up to the limit and nothing else.
fn number(name: &str, word: &str, limit: u32) -> Result<u32, Fault> {
    let digits = word.bytes().all(|byte| byte.is_ascii_digit());
    let number = word.parse().ok().filter(|number| *number <= limit);
    number.filter(|_| digits).ok_or_else(|| {
        let wanted = format!("{name} must be a whole number, at most {limit}");
        Fault::Words(format!("{wanted}, not '{word}'"))
    })
}

/// All bytes of a file that is not too large.
fn read_file(name: &str) -> Result<Vec<u8>, Fault> {
    let mut bytes = Vec::new();
    let most = MAX_FILE_BYTES as u64;
    let read = File::open(name).and_then(|file| file.take(most + 1).read_to_end(&mut bytes));
    match read {
        Err(error) => Err(Fault::Refused(format!("{name}: {}", plain(&error)))),
        Ok(length) if length > MAX_FILE_BYTES => Err(Fault::Refused(format!(
            "{name}: too large, a tower file has at most {MAX_FILE_BYTES} bytes"
        ))),
        Ok(_) => Ok(bytes),
    }
}

/// The system's message without its number.
fn plain(error: &io::Error) -> String {
    let message = error.to_string();
    match message.split_once(" (os error") {
        Some((text, _)) => text.to_string(),
        None => message,
    }
}

fn table(name: &str, wind: &Wind, rows: &[Row]) -> String {
    let (k, ice, factor) = (wind.direction, wind.ice_class, wind.structure_factor);
    let mut text = format!(
        "{name}: {} sections, k {k}, ice class {ice}, structure factor {}.{:03}\n",
        rows.len(),
        factor / 1_000,
        factor % 1_000
    );
    text += "section  q N/m2    A_f mm2    A_c mm2    A_p mm2    force N    shear N        moment kN m\n";
    for (section, (pressure, row)) in wind.pressures.iter().zip(rows).enumerate() {
        let (kilonewton_metres, rest) = (row.moment / 1_000_000, row.moment % 1_000_000);
        let _ = writeln!(
            text,
            "{section:>7} {pressure:>7} {:>10} {:>10} {:>10} {:>10} {:>10} {kilonewton_metres:>11}.{rest:06}",
            row.flat, row.subcritical, row.supercritical, row.force, row.shear
        );
    }
    text
}

fn print(text: &str) -> Result<(), Fault> {
    let mut out = io::stdout();
    let written = out.write_all(text.as_bytes()).and_then(|()| out.flush());
    written.map_err(|error| Fault::Refused(format!("standard output: {}", plain(&error))))
}
