//! Links the proved libraries, of which reference/benchmark puts copies into target/staticlib.

use std::path::Path;

/// All are linked.
const LIBRARIES: [&str; 3] = ["force_bench", "file_bench", "call_bench"];

/// Functions of theirs that another checkout's may lack.
const LATE: [(&str, &str); 2] = [
    ("call_bench", "first_down_bench"),
    ("call_bench", "keep_bench"),
];

/// Set by reference/benchmark: of which of them it has put another checkout's beside
/// this one's.
const ASKED: &str = "BENCH_BESIDE";

fn main() {
    let folder = Path::new(env!("CARGO_MANIFEST_DIR")).join("../../target/staticlib");
    println!("cargo::rustc-link-search=native={}", folder.display());
    for name in LIBRARIES {
        link(&folder, name, "reference/benchmark");
    }
    let late = LATE.map(|(_, function)| function);
    let names: Vec<String> = LIBRARIES
        .iter()
        .chain(&late)
        .map(|name| format!("{name:?}"))
        .collect();
    let names = names.join(", ");
    println!("cargo::rustc-check-cfg=cfg(beside, values({names}))");
    println!("cargo::rerun-if-env-changed={ASKED}");
    for name in std::env::var(ASKED).unwrap_or_default().split_whitespace() {
        if LIBRARIES.contains(&name) {
            println!("cargo::rustc-cfg=beside={name:?}");
            let run = "reference/benchmark --beside FOLDER";
            link(&folder, &format!("{name}_beside"), run);
            let of_this = |(library, _): &&(&str, &str)| *library == name;
            for (_, function) in LATE.iter().filter(of_this) {
                if has(&folder, name, function) {
                    println!("cargo::rustc-cfg=beside={function:?}");
                }
            }
        } else {
            println!("cargo::error={ASKED}: no such library: {name}");
        }
    }
}

/// Whether the library beside has this function: its name stands in the file.
fn has(folder: &Path, library: &str, function: &str) -> bool {
    let name = format!("{function}_beside");
    let file = std::fs::read(folder.join(format!("lib{library}_beside.a")));
    file.is_ok_and(|bytes| {
        bytes
            .windows(name.len())
            .any(|part| part == name.as_bytes())
    })
}

/// Links this library if it is there, or says what builds it.
fn link(folder: &Path, name: &str, run: &str) {
    let library = folder.join(format!("lib{name}.a"));
    println!("cargo::rerun-if-changed={}", library.display());
    if library.is_file() {
        println!("cargo::rustc-link-lib=static={name}");
    } else {
        let wanted = format!("target/staticlib/lib{name}.a is missing");
        println!("cargo::error={wanted}; run `{run}` in the repository's root");
    }
}
