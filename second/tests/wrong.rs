//! Builds that are wrong in known ways are caught by `second try` and shrunk to a few calls.
//!
//! Each is this program with an edit of tests/wrong made to its source: `old` stands once in `file`
//! and becomes `new`, as in the must-fail edits of the crates.

use std::path::{Path, PathBuf};
use std::process::Command;

const SECOND: &str = env!("CARGO_BIN_EXE_second");

/// What answers a list; the rest of this program makes lists and compares.
const PARTS: [&str; 13] = [
    "answer", "answerer", "call", "exchange", "masters", "message", "nearest", "refusal", "servo",
    "settings", "text", "unit", "watch",
];

fn here() -> &'static Path {
    Path::new(env!("CARGO_MANIFEST_DIR"))
}

/// A folder of its own for a build, with nothing in it.
fn folder(name: &str) -> PathBuf {
    let folder = Path::new(env!("CARGO_TARGET_TMPDIR")).join("wrong").join(name);
    let _ = std::fs::remove_dir_all(&folder);
    std::fs::create_dir_all(folder.join("src")).unwrap();
    folder
}

/// Makes the edit in a copy of the source.
fn edit(folder: &Path, name: &str) {
    let edit = std::fs::read_to_string(here().join(format!("tests/wrong/{name}.edit"))).unwrap();
    let (mut file, mut old) = ("", "");
    for line in edit.lines() {
        if let Some(named) = line.strip_prefix("file: ") {
            file = named;
        } else if let Some(text) = line.strip_prefix("old: ") {
            old = text;
        } else if let Some(new) = line.strip_prefix("new: ") {
            let path = folder.join(file);
            let text = std::fs::read_to_string(&path).unwrap();
            assert_eq!(text.matches(old).count(), 1, "{name}: {old}");
            std::fs::write(&path, text.replace(old, new)).unwrap();
        }
    }
}

/// Builds the program with an edit.
fn build(name: &str) -> PathBuf {
    let folder = folder(name);
    let mut main = String::from("#![allow(dead_code, unused_imports)]\n");
    for part in PARTS {
        let file = format!("src/{part}.rs");
        std::fs::copy(here().join(&file), folder.join(&file)).unwrap();
        main += &format!("mod {part};\n");
    }
    main += "fn main() {\n    let (calls, answers) = (std::io::stdin(), std::io::stdout());\n";
    main += "    answerer::answer(calls.lock(), answers.lock()).unwrap();\n}\n";
    std::fs::write(folder.join("src/main.rs"), main).unwrap();
    edit(&folder, name);
    let rustc = std::env::var("RUSTC").unwrap_or(String::from("rustc"));
    let program = folder.join(name);
    let mut command = Command::new(rustc);
    command.args(["--edition", "2021", "-o"]).arg(&program).arg(folder.join("src/main.rs"));
    assert!(command.status().unwrap().success(), "{name} can't be built");
    program
}

/// What `second try` says of a build, and the list that it writes.
fn caught(name: &str) -> (String, String) {
    let program = build(name);
    let to = program.with_extension("txt");
    let output = Command::new(SECOND)
        .args(["try", "seconds=300"])
        .arg(format!("against={SECOND} answer"))
        .arg(format!("to={}", to.display()))
        .arg("--")
        .arg(&program)
        .output()
        .unwrap();
    let told = String::from_utf8(output.stdout).unwrap();
    assert_eq!(output.status.code(), Some(1), "{name}: {told}");
    (told, std::fs::read_to_string(to).unwrap())
}

/// Calls of a list, by their names.
fn calls(list: &str) -> Vec<&str> {
    let lines = list.lines().filter(|line| !line.is_empty() && !line.starts_with('#'));
    lines.map(|line| line.split(' ').next().unwrap()).collect()
}

/// Settings, a tick, a wipe and a tick, which is the first one again.
#[test]
fn a_wipe_that_keeps_the_window() {
    let (told, list) = caught("wipe_keeps_the_window");
    assert!(told.contains("none of them can be left out"), "{told}");
    assert!(calls(&list).len() <= 4, "{list}");
}

/// Settings, two Announces and two measurements of four calls.
#[test]
fn the_upper_middle() {
    let (told, list) = caught("upper_middle");
    assert!(told.contains("another answer"), "{told}");
    assert!(calls(&list).len() <= 11, "{list}");
}

/// Settings, three ticks, the second invalid, and the line.
#[test]
fn x_over_valid_samples_only() {
    let (told, list) = caught("numbers_valid_samples");
    assert!(told.contains("another answer"), "{told}");
    assert!(calls(&list).len() <= 5, "{list}");
}

/// Settings, two Announces, ten measurements of four calls, a wipe and one measurement. It can't be
/// shorter: gains are halved at the tenth offset since a wipe and not before.
#[test]
fn gains_that_are_not_restored() {
    let (told, list) = caught("gains_not_restored");
    assert!(told.contains("another answer"), "{told}");
    assert!(calls(&list).len() <= 48, "{list}");
}
