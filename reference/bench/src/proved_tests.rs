//! Tests of what all timed work of the libraries has, with them linked.

use crate::calls::{timed_calls, timed_towers};
use crate::copies::timed_copies;
use crate::file::timed_files;
use crate::library::{Calls, Forces, Library};
use crate::proved::{beside, beside_rust, times, Differences, InRust, Proved, Versions};
use crate::section::{sections, Kind, Timed};
use crate::timing::{Pair, PairTable};

fn supercritical(count: usize) -> Vec<Timed> {
    sections(Kind::Supercritical, count)
}

/// Each difference of a library that answers 1 and does nothing.
fn of_the_wrong<P: Proved>(works: &[P]) -> Vec<String> {
    let difference = |work: &P| work.difference(&P::Library::WRONG);
    works.iter().filter_map(difference).collect()
}

#[test]
fn a_difference_is_told_with_the_name_of_the_library() {
    let section = &of_the_wrong(&supercritical(1))[0];
    let exact = supercritical(1)[0].exact(16);
    let start = format!("supercritical 0: a wrong library has 1, exact {exact} for ");
    assert!(section.starts_with(&start), "{section}");
    let files = of_the_wrong(&timed_files());
    let read = "largest, 2915 bytes, read: a wrong library answers 1, not 2915";
    assert_eq!((files.len(), &files[0][..]), (8, read));
    let reports = of_the_wrong(&timed_towers());
    let other = "a wrong library reports other numbers from place 0 on";
    let report = format!("largest, four tubes a section: {other}");
    assert_eq!((reports.len(), &reports[0]), (6, &report));
    let calls = of_the_wrong(&timed_calls());
    let erect = "erect: 2915 bytes: of 3 calls a wrong library accepts 1, Rust 3";
    assert_eq!((calls.len(), &calls[2][..]), (6, erect));
    let copies = of_the_wrong(&timed_copies());
    let copy = format!("a copy, 32 sections, 64 items: {other}");
    assert_eq!((copies.len(), &copies[0]), (2, &copy));
}

/// Whether the other libraries are asked for or not.
fn differs_nowhere<P: Proved>(works: &[P]) {
    for asked in [false, true] {
        let mut differ = Differences::default();
        differ.compare(works, P::Library::beside(asked));
        assert_eq!(differ.that_stop(false), [""; 0]);
    }
}

#[test]
fn the_libraries_do_not_differ() {
    for kind in Kind::ALL {
        differs_nowhere(&sections(kind, 32));
    }
    differs_nowhere(&timed_files());
    differs_nowhere(&timed_towers());
    differs_nowhere(&timed_calls());
    differs_nowhere(&timed_copies());
}

#[test]
fn a_library_beside_stops_all_where_it_differs() {
    let mut differ = Differences::default();
    differ.compare(&supercritical(3), Some(Forces::WRONG));
    assert_eq!(differ.that_stop(false), of_the_wrong(&supercritical(3)));
    differ.compare(&supercritical(2), Some(Forces::THIS));
    assert_eq!(differ.that_stop(false).len(), 3);
}

#[test]
fn a_changed_library_beside_may_differ_and_is_counted() {
    let mut differ = Differences::default();
    assert_eq!(
        differ.beside(),
        "the library beside differs in 0 of 0 works"
    );
    differ.compare(&timed_towers(), None);
    differ.compare(&timed_towers(), Some(Calls::WRONG));
    differ.compare(&timed_calls(), Some(Calls::THIS));
    assert_eq!(differ.that_stop(true), [""; 0]);
    let counted = "the library beside differs in 6 of 12 works";
    assert_eq!(differ.beside(), counted);
    differ.this.push("ours".into());
    assert_eq!(differ.that_stop(true), ["ours"]);
    let all = differ.that_stop(false);
    assert_eq!((all.len(), all[0]), (7, "ours"));
}

#[test]
fn the_libraries_have_names() {
    fn names<L: Library>(asked: bool) -> Vec<&'static str> {
        L::all(asked).map(|library| library.whose()).collect()
    }
    fn named<P: Proved>(_: &[P]) {
        let linked = P::Library::BESIDE.map(|library| library.whose());
        assert!(linked.is_none_or(|whose| whose == "the library beside"));
        let both: Vec<&str> = ["the library"].into_iter().chain(linked).collect();
        assert_eq!(names::<P::Library>(true), both);
        assert_eq!(names::<P::Library>(false), ["the library"]);
    }
    named(&supercritical(1));
    named(&timed_files());
    named(&timed_towers());
}

fn is_time(pair: Pair) -> bool {
    [pair.first, pair.second]
        .iter()
        .all(|number| *number > 0.0 && number.is_finite())
}

/// Beside itself, and beside another checkout's if it is linked.
fn has_times<P: Proved>(work: &P) {
    for library in P::Library::all(true).filter(|library| work.is_in(library)) {
        assert!(is_time(beside(work, &library, 1)), "{}", work.name());
    }
}

fn has_times_in_rust<P: InRust>(work: &P) {
    has_times(work);
    assert!(is_time(beside_rust(work, 1)), "{}", work.name());
}

fn has_times_of_three<P: Versions>(work: &P) {
    has_times(work);
    let times = times(work, 1);
    let three = [times.library, times.plain, times.exact];
    assert!(three.iter().all(|time| *time > 0.0 && time.is_finite()));
}

#[test]
fn a_library_may_be_timed_beside_another() {
    has_times_of_three(&supercritical(1)[0]);
    timed_files()[..2].iter().for_each(has_times_in_rust);
    has_times_of_three(&timed_towers()[0]);
    timed_calls()[..3].iter().for_each(has_times_in_rust);
    has_times_in_rust(&timed_copies()[0]);
}

#[test]
fn the_tables_of_two_say_beside_what() {
    let pair = Pair {
        first: 150.0,
        second: 100.04,
    };
    for (table, versions) in [
        (PairTable::rust("ns per call"), ["library", "Rust"]),
        (PairTable::beside("ns per call"), ["library", "beside"]),
    ] {
        let (head, line) = (table.head(), table.line("erect: 2915 bytes", pair));
        assert_eq!(head.len(), line.len());
        let [first, second] = versions;
        let ratio = format!("{first}/{second}");
        let words: Vec<&str> = head.split_whitespace().collect();
        assert_eq!(words, ["ns", "per", "call", first, second, &ratio]);
        let words: Vec<&str> = line.split_whitespace().collect();
        assert_eq!(words, ["erect:", "2915", "bytes", "150.0", "100.0", "1.50"]);
    }
}

#[test]
fn pairs_have_means_and_a_greatest_ratio() {
    let pair = |first, second| Pair { first, second };
    let all = [pair(1.0, 10.0), pair(2.0, 30.0), pair(6.0, 20.0)];
    assert_eq!(Pair::mean(&all), pair(3.0, 20.0));
    let steep = [pair(9.0, 10.0), pair(2.0, 1.0), pair(8.0, 5.0)];
    assert_eq!(Pair::worst(&steep), steep[1]);
}
