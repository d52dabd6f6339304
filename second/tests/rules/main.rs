//! docs/RULES.md and the repository hold to each other: every place that the page names is there,
//! every rule has its places, and every rule that is cited anywhere stands on the page.

mod citations;
mod faults;
mod made_up;
mod page;
mod places;

use page::{Number, Page};
use std::collections::BTreeSet;
use std::path::{Path, PathBuf};

/// The repository, or a made-up one: what a file holds, by its path from the root.
type Repository<'a> = &'a dyn Fn(&str) -> Option<String>;

fn root() -> PathBuf {
    Path::new(env!("CARGO_MANIFEST_DIR")).join("..")
}

fn held(path: &str) -> Option<String> {
    std::fs::read_to_string(root().join(path)).ok()
}

fn todays() -> Page {
    page::read(&held("docs/RULES.md").expect("docs/RULES.md can't be read"))
}

fn none_of(faults: Vec<String>) {
    assert!(faults.is_empty(), "{} faults:\n{}", faults.len(), faults.join("\n"));
}

const ENDINGS: [&str; 10] = ["antt", "rt", "edit", "md", "rs", "txt", "h", "c", "sh", "py"];

/// What stands in a folder, by paths from the root.
fn entries(folder: &str) -> Vec<String> {
    let entries = std::fs::read_dir(root().join(folder));
    let entries = entries.unwrap_or_else(|error| panic!("{folder} can't be read: {error}"));
    let name = |entry: std::fs::DirEntry| entry.file_name().to_string_lossy().to_string();
    entries.map(|entry| format!("{folder}/{}", name(entry.expect("an entry")))).collect()
}

/// The text files under a folder.
fn texts(folder: &str) -> Vec<String> {
    let mut found = vec![];
    let mut waiting = vec![folder.to_string()];
    while let Some(path) = waiting.pop() {
        if path.ends_with("/target") {
            continue;
        } else if root().join(&path).is_dir() {
            waiting.extend(entries(&path));
        } else if ENDINGS.iter().any(|ending| path.ends_with(&format!(".{ending}"))) {
            found.push(path);
        }
    }
    found.sort();
    found
}

#[test]
fn the_page_holds_to_the_repository() {
    none_of(faults::of(&todays(), &held));
}

#[test]
fn every_citation_is_of_a_rule() {
    let known: BTreeSet<Number> = todays().rules.iter().map(|rule| rule.number).collect();
    let folders = ["crates", "second", "docs", "examples", "door", "scripts"];
    let mut files: Vec<String> = folders.iter().flat_map(|folder| texts(folder)).collect();
    files.push("README.md".to_string());
    files.retain(|file| !file.starts_with("second/tests/rules/")); // its made-up pages cite what they like
    files.retain(|file| !file.ends_with(".antt.txt") && !file.ends_with(".rt.txt")); // work that has not landed
    let of = |file: &String| citations::faults(file, &held(file).unwrap_or_default(), &known);
    none_of(files.iter().flat_map(of).collect());
}
