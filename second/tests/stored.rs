//! The stored lists and their stored answers are what this program gives today.

use second::answerer::answers;
use second::lists;
use std::path::Path;

/// What a file of the repository holds.
fn stored(name: &str) -> Vec<u8> {
    let path = Path::new(env!("CARGO_MANIFEST_DIR")).join("..").join(name);
    std::fs::read(&path).unwrap_or_else(|error| panic!("{name} can't be read: {error}\n{HOW}"))
}

const HOW: &str = "It is written from the repository's root with
  second/target/debug/second list stored > crates/bench/stdin
  second/target/debug/second answer < crates/bench/stdin > crates/bench/stdout
and for each list NAME.txt of examples/ with
  second/target/debug/second answer < examples/NAME.txt > examples/NAME.answers";

/// The first line in which two texts differ, counted from 1.
fn first_difference(one: &[u8], other: &[u8]) -> usize {
    let same = one.iter().zip(other).take_while(|(one, other)| one == other);
    let newlines = same.filter(|(octet, _)| **octet == b'\n').count();
    newlines + 1
}

fn compare(name: &str, today: &[u8]) {
    let stored = stored(name);
    let line = first_difference(&stored, today);
    assert!(stored == today, "{name} differs from line {line} on.\n{HOW}");
}

#[test]
fn the_stored_list_is_todays() {
    compare("crates/bench/stdin", &lists::stored());
}

#[test]
fn the_stored_answers_are_todays() {
    compare("crates/bench/stdout", &answers(&lists::stored()));
}

/// The names of the lists in examples/, and of the answers there.
fn examples(kind: &str) -> Vec<String> {
    let folder = Path::new(env!("CARGO_MANIFEST_DIR")).join("../examples");
    let files = std::fs::read_dir(folder).expect("examples/ can be read");
    let names = files.map(|file| file.unwrap().file_name().into_string().unwrap());
    let mut names: Vec<String> =
        names.filter_map(|name| name.strip_suffix(kind).map(String::from)).collect();
    names.sort();
    names
}

#[test]
fn every_example_has_todays_answers() {
    let lists = examples(".txt");
    assert!(!lists.is_empty());
    assert_eq!(lists, examples(".answers"), "a list without answers, or answers without a list");
    for name in lists {
        let list = stored(&format!("examples/{name}.txt"));
        compare(&format!("examples/{name}.answers"), &answers(&list));
    }
}
