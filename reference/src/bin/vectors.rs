//! Prints the cases on which the definitions are compared with this version.

use reference::vectors::{Counts, Vectors, USAGE};
use std::process::ExitCode;

fn main() -> ExitCode {
    let words: Vec<String> = std::env::args_os()
        .skip(1)
        .map(|word| word.to_string_lossy().into_owned())
        .collect();
    match words.first().map(String::as_str) {
        None => answer(),
        Some("--help") if words.len() == 1 => {
            print!("{USAGE}");
            ExitCode::SUCCESS
        }
        Some(_) => {
            eprint!("vectors: unknown words: {}\n{USAGE}", words.join(" "));
            ExitCode::from(2)
        }
    }
}

fn answer() -> ExitCode {
    let vectors = Vectors::all();
    print!("{}", vectors.table());
    show("files", &vectors.file_refusals());
    show("calls but erect", &vectors.call_refusals());
    show("host calls", &vectors.host_refusals());
    let missing = vectors.missing();
    for refusal in &missing {
        eprintln!("vectors: {refusal}");
    }
    if missing.is_empty() {
        ExitCode::SUCCESS
    } else {
        ExitCode::FAILURE
    }
}

/// Each refusal with its count; 0 is for what was accepted.
fn show(kind: &str, counts: &Counts) {
    let parts: Vec<String> = counts
        .iter()
        .map(|(refusal, count)| format!("{refusal}: {count}"))
        .collect();
    eprintln!("vectors: refusals of {kind}: {}", parts.join(", "));
}
