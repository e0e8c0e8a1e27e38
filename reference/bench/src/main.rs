//! Times the proved libraries beside Rust versions, all in one run on the same
//! inputs: the section force and the report beside a plain floating-point version
//! and the exact one, and the tower file, the other calls and copies of a state
//! beside the Rust version; and the service program behind a pipe.

#[cfg(test)]
mod call_tests;
mod calls;
mod copies;
#[cfg(test)]
mod field_tests;
mod fields;
mod file;
#[cfg(test)]
mod file_tests;
mod lent;
#[allow(unsafe_code)]
mod library;
mod pipe;
#[cfg(test)]
mod pipe_tests;
mod proved;
#[cfg(test)]
mod proved_tests;
mod rates;
mod requests;
mod section;
#[cfg(test)]
mod tests;
mod timing;
mod towers;
#[cfg(test)]
mod tube_tests;
mod tubes;
#[cfg(test)]
mod word_tests;
mod words;

use calls::{mast, timed_calls, timed_towers, with_room, TimedTower};
use copies::timed_copies;
use fields::{timed_fields, Fetch, TimedFields};
use file::timed_files;
use library::{Calls, Files, Forces, Library};
use proved::{beside_rust, times, works_in, Differences, InRust, Proved};
use rates::Rate;
use section::{sections, Kind, Timed};
use std::process::ExitCode;
use timing::{head, line, Pair, PairTable, Times};
use words::{parse, Command, Parts, Run, USAGE};

/// Sections of each kind.
const SECTIONS: usize = 32;

/// Repetitions for each section, file and tower.
const REPETITIONS: u32 = 15;

/// What can be timed beside another checkout's library.
const LINKED: Parts = Parts {
    force: Forces::BESIDE.is_some(),
    file: Files::BESIDE.is_some(),
    calls: Calls::BESIDE.is_some(),
    pipe: false,
};

fn main() -> ExitCode {
    let words: Vec<String> = std::env::args_os()
        .skip(1)
        .map(|word| word.to_string_lossy().into_owned())
        .collect();
    match parse(&words, LINKED) {
        Ok(Command::Help) => {
            print!("{USAGE}");
            ExitCode::SUCCESS
        }
        Ok(Command::Run(asked)) => {
            if run(&asked) {
                ExitCode::SUCCESS
            } else {
                ExitCode::FAILURE
            }
        }
        Err(wrong) => {
            eprint!("bench: {wrong}\n{USAGE}");
            ExitCode::from(2)
        }
    }
}

/// Times what is asked for; whether nothing differs.
fn run(asked: &Run) -> bool {
    let parts = asked.parts;
    let differ = [
        parts.force && !run_force(asked),
        parts.file && !run_file(asked),
        parts.calls && !run_calls(asked),
        parts.pipe && !run_pipe(asked),
    ];
    !differ.contains(&true)
}

/// Says what differs in a part; whether it may be timed.
fn may_be_timed(part: &str, differ: &Differences, asked: &Run) -> bool {
    let stop = differ.that_stop(asked.changed);
    for difference in &stop {
        eprintln!("bench: {}", difference.trim_end());
    }
    if asked.changed {
        println!("{part}: {}", differ.beside());
    }
    stop.is_empty()
}

/// Sections of a kind, and its name.
type OfKind = (&'static str, Vec<Timed>);

/// Compares the section forces and, if they are the same, times them.
fn run_force(asked: &Run) -> bool {
    let kinds = Kind::ALL.map(|kind| (kind.name(), sections(kind, SECTIONS)));
    let other = Forces::beside(asked.beside);
    let mut differ = Differences::default();
    for (_, sections) in &kinds {
        differ.compare(sections, other);
    }
    let sound = may_be_timed("force", &differ, asked);
    if sound {
        show_forces(&kinds, asked.each);
        if let Some(other) = other {
            show_forces_beside(&kinds, &other, asked.each);
        }
    }
    sound
}

/// Prints the table of the section forces.
fn show_forces(kinds: &[OfKind], each: bool) {
    println!("{}", head(Timed::WHAT));
    for (name, sections) in kinds {
        let all = show_each(sections, each, |section| times(section, REPETITIONS), line);
        println!("{}", line(&format!("{name}, mean"), Times::mean(&all)));
        println!("{}", line(&format!("{name}, worst"), Times::worst(&all)));
    }
}

/// Prints that of the section forces beside another library's.
fn show_forces_beside(kinds: &[OfKind], other: &Forces, each: bool) {
    let table = PairTable::beside(Timed::WHAT);
    let by_turns = |section: &_| proved::beside(section, other, REPETITIONS);
    let line = |name: &str, pair| table.line(name, pair);
    println!("{}", table.head());
    for (name, sections) in kinds {
        let all = show_each(sections, each, by_turns, line);
        println!("{}", line(&format!("{name}, mean"), Pair::mean(&all)));
        println!("{}", line(&format!("{name}, worst"), Pair::worst(&all)));
    }
}

/// Times these sections and prints a line for each, if asked for.
fn show_each<T: Copy>(
    sections: &[Timed],
    each: bool,
    times: impl Fn(&Timed) -> T,
    line: impl Fn(&str, T) -> String,
) -> Vec<T> {
    let all: Vec<T> = sections.iter().map(times).collect();
    if each {
        for (section, times) in sections.iter().zip(&all) {
            println!("{}", line(&section.name(), *times));
        }
    }
    all
}

/// Times these beside the Rust version and prints their table.
fn show_beside_rust<P: InRust>(works: &[P]) {
    let by_turns = |work: &_| beside_rust(work, REPETITIONS);
    show_pairs(&PairTable::rust(P::WHAT), works.iter(), by_turns);
}

/// Times those of these that the other library has beside it, if asked for, and
/// prints their table.
fn show_beside<P: Proved>(works: &[P], asked: &Run) {
    if let Some(other) = P::Library::beside(asked.beside) {
        let by_turns = |work: &_| proved::beside(work, &other, REPETITIONS);
        let works = works_in(works, &other);
        show_pairs(&PairTable::beside(P::WHAT), works, by_turns);
    }
}

/// Prints no table where there are none.
fn show_pairs<'a, P: Proved + 'a>(
    table: &PairTable,
    works: impl Iterator<Item = &'a P>,
    by_turns: impl Fn(&P) -> Pair,
) {
    for (place, work) in works.enumerate() {
        if place == 0 {
            println!("{}", table.head());
        }
        println!("{}", table.line(&work.name(), by_turns(work)));
    }
}

/// Compares the bytes and the fields of all files and, if they are the same, times
/// those of the largest or of each.
fn run_file(asked: &Run) -> bool {
    let (files, fields) = (timed_files(), timed_fields());
    let mut differ = Differences::default();
    differ.compare(&files, Files::beside(asked.beside));
    let both = |fields: &TimedFields| Fetch::ALL.map(|fetch| fields.difference(fetch));
    differ.this.extend(fields.iter().flat_map(both).flatten());
    let sound = may_be_timed("file", &differ, asked);
    if sound {
        let shown = first(&files, 2, asked);
        show_beside_rust(shown);
        show_beside(shown, asked);
        println!("{}", fields::TABLE.head());
        for timed in first(&fields, 1, asked) {
            let name = format!("{}, {} fields", timed.name, timed.count());
            let times = timed.times(REPETITIONS);
            println!("{}", fields::TABLE.line(&name, times));
        }
    }
    sound
}

/// So many of these or, if asked for, each.
fn first<'a, T>(all: &'a [T], count: usize, asked: &Run) -> &'a [T] {
    if asked.each {
        all
    } else {
        &all[..count]
    }
}

/// Compares the reports and, if they are the same, times the calls on the largest
/// towers or on each, and copies of their states.
fn run_calls(asked: &Run) -> bool {
    let (towers, calls, copies) = (timed_towers(), timed_calls(), timed_copies());
    let other = Calls::beside(asked.beside);
    let mut differ = Differences::default();
    differ.compare(&towers, other);
    let plain = towers.iter().filter_map(TimedTower::plain_difference);
    differ.this.extend(plain);
    differ.compare(&calls, other);
    differ.compare(&copies, other);
    let sound = may_be_timed("calls", &differ, asked);
    if sound {
        let (towers, calls) = (first(&towers, 3, asked), first(&calls, 3, asked));
        let copies = first(&copies, 1, asked);
        println!("{}", head(TimedTower::WHAT));
        for timed in towers {
            println!("{}", line(timed.name, times(timed, REPETITIONS)));
        }
        show_beside(towers, asked);
        show_beside_rust(calls);
        show_beside(calls, asked);
        show_beside_rust(copies);
        show_beside(copies, asked);
    }
    sound
}

/// Times requests through a pipe and compares all answers.
fn run_pipe(asked: &Run) -> bool {
    println!("{}", rates::head());
    let done = show_rates(&asked.towerd, asked.each);
    if let Err(wrong) = &done {
        eprintln!("bench: {wrong}");
    }
    done.is_ok()
}

/// Prints the table of requests through a pipe.
fn show_rates(towerd: &str, each: bool) -> Result<(), String> {
    for timed in [mast(), with_room()] {
        for (what, rate) in rates::on_tower(towerd, &timed)? {
            println!("{}", rates::line(&format!("{}: {what}", timed.name), rate));
        }
    }
    let million = |place: usize, rate: Rate| {
        if each {
            println!("{}", rates::line(&format!("million {place}"), rate));
        }
    };
    for (name, rate) in rates::long(towerd, &with_room(), million)?.named() {
        println!("{}", rates::line(name, rate));
    }
    Ok(())
}
