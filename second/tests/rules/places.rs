//! Places: `crate/specs/File:name`, `crate/proofs/File:name`, `crate/src/file:Type::function` and
//! `crate/must-fail/edit`, all under crates/.

use crate::Repository;

/// The folder of its crate that a place is in.
pub fn folder(place: &str) -> &str {
    place.split('/').nth(1).unwrap_or_default()
}

/// The file of a place without its name; none for what is no place.
pub fn path(file: &str) -> Option<String> {
    let ending = match folder(file) {
        "specs" | "proofs" => "antt",
        "src" => "rt",
        "must-fail" | "tried" => "edit",
        _ => return None,
    };
    Some(format!("crates/{file}.{ending}"))
}

/// The file, and the name in it.
fn parts(place: &str) -> (&str, &str) {
    place.split_once(':').unwrap_or((place, ""))
}

/// What stands behind the words that may come before a name.
fn behind(line: &str) -> &str {
    let words = ["abbrev ", "unfoldable ", "pub ", "record ", "data "];
    let mut line = line.trim_start();
    while let Some(rest) = words.iter().find_map(|word| line.strip_prefix(word)) {
        line = rest;
    }
    line
}

/// A line of a definition or a theorem begins with the name.
fn says(file: &str, name: &str) -> bool {
    let rests = file.lines().filter_map(|line| behind(line).strip_prefix(name));
    rests.into_iter().any(|rest| rest.is_empty() || rest.starts_with([' ', ':']))
}

/// The code from `word name` on.
fn declared<'a>(file: &'a str, word: &str, name: &str) -> Option<&'a str> {
    let wanted = format!("{word} {name}");
    let goes_on = |c: char| c.is_alphanumeric() || c == '_';
    let whole = |at: &usize| {
        !file[..*at].ends_with(goes_on) && !file[at + wanted.len()..].starts_with(goes_on)
    };
    file.match_indices(&wanted).map(|(at, _)| at).find(whole).map(|at| &file[at..])
}

/// The function from its name on, in its `impl` where the name has one.
fn function<'a>(file: &'a str, name: &str) -> Option<&'a str> {
    match name.split_once("::") {
        Some((of, method)) => declared(declared(file, "impl", of)?, "fn", method),
        None => declared(file, "fn", name),
    }
}

fn declares(file: &str, name: &str) -> bool {
    let kinds = ["struct", "enum", "const"];
    function(file, name).is_some() || kinds.iter().any(|kind| declared(file, kind, name).is_some())
}

/// What is wrong with a place.
pub fn fault(place: &str, repository: Repository) -> Option<String> {
    let (file, name) = parts(place);
    let Some(path) = path(file) else {
        return Some(format!("`{place}` is no place"));
    };
    let Some(held) = repository(&path) else {
        return Some(format!("`{place}`: there is no {path}"));
    };
    let edit = path.ends_with(".edit");
    if name.is_empty() != edit {
        return Some(format!("`{place}`: an edit has no name in it, and any other file has one"));
    }
    let there = if path.ends_with(".rt") { declares(&held, name) } else { says(&held, name) };
    (!edit && !there).then(|| format!("`{place}`: {path} does not have it"))
}

/// The place is a function with an `ensures`, which stands before its body.
pub fn has_contract(place: &str, repository: Repository) -> bool {
    let (file, name) = parts(place);
    let Some(held) = path(file).and_then(|path| repository(&path)) else { return false };
    let mut head =
        function(&held, name).unwrap_or_default().lines().take_while(|line| line.trim() != "{");
    head.any(|line| line.contains("ensures"))
}
