//! What include/dembyhai.h lists.

use reference::refusal::{Refusal, ANSWERS};
use std::fs;
use std::path::Path;

fn header() -> String {
    let path = Path::new(env!("CARGO_MANIFEST_DIR")).join("../include/dembyhai.h");
    fs::read_to_string(path).expect("the header")
}

/// The numbers of an enumeration in their order; each has a name and a comment.
fn numbers(header: &str, name: &str) -> Vec<usize> {
    let (_, body) = header
        .split_once(&format!("enum {name} {{\n"))
        .expect("the enumeration");
    let (body, _) = body.split_once("};").expect("its end");
    body.lines()
        .map(|line| {
            let (name, rest) = line.trim().split_once(" = ").expect("a name");
            assert!(name.starts_with("DEMBYHAI_"), "{line}");
            let (number, comment) = rest.split_once("/* ").expect("a comment");
            assert!(comment.ends_with(" */"), "{line}");
            let number = number.trim().trim_end_matches(',');
            number.parse().expect("a number")
        })
        .collect()
}

#[test]
fn the_header_lists_0_and_every_refusal() {
    let header = header();
    let listed = numbers(&header, "dembyhai_refusal");
    assert_eq!(listed, (0..ANSWERS).collect::<Vec<usize>>());
    let count = format!("Document 01's {} refusals.", Refusal::ALL.len());
    assert!(header.contains(&count), "{count}");
}
