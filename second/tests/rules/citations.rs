//! Citations: `rule 4.7`, `rules 4.7, 5.2 and 9.1`, `rules 3.56 to 3.59`, also over the end of a line.

use crate::page::{number, Number};
use std::collections::BTreeSet;

/// The words of a text, each with its line; what opens a comment line is no word.
fn words(text: &str) -> Vec<(usize, &str)> {
    let opens = |word: &str| ["--", "//", "///", "//!", "#", "*"].contains(&word);
    let lines = text.lines().zip(1..);
    let words = lines.flat_map(|(line, at)| line.split_whitespace().map(move |word| (at, word)));
    words.filter(|(_, word)| !opens(word)).collect()
}

/// A word without what stands around it in a sentence.
fn bare(word: &str) -> &str {
    word.trim_matches(|c: char| !c.is_ascii_alphanumeric())
}

/// The numbers that are cited, each with its line.
fn cited(text: &str) -> Vec<(usize, Number)> {
    let words = words(text);
    let mut found = vec![];
    for (at, (_, word)) in words.iter().enumerate() {
        if ["rule", "rules"].contains(&bare(word).to_lowercase().as_str()) {
            let goes_on =
                |word: &str| ["and", "or", "to"].contains(&word) || number(bare(word)).is_some();
            let list = words[at + 1..].iter().take_while(|(_, word)| goes_on(word));
            found.extend(list.filter_map(|(line, word)| Some((*line, number(bare(word))?))));
        }
    }
    found
}

/// The citations of a file that are of no rule.
pub fn faults(name: &str, text: &str, known: &BTreeSet<Number>) -> Vec<String> {
    let strange = cited(text).into_iter().filter(|(_, number)| !known.contains(number));
    let fault = |(line, (section, number))| {
        format!("{name}, line {line}: there is no rule {section}.{number}")
    };
    strange.map(fault).collect()
}

#[test]
fn citations_are_found() {
    let list = "rules 1.1, 1.3\n-- and 2.1), and 5 more (Rule 2.1).";
    assert_eq!(cited(list), [(1, (1, 1)), (1, (1, 3)), (2, (2, 1)), (2, (2, 1))]);
    assert_eq!(cited("a rule\n-- 1.3 of the servo"), [(2, (1, 3))]);
    assert_eq!(cited("the ruler 1.3, a rule of 4.7"), []);
    assert_eq!(cited("live for 4.5 intervals"), []);
}

#[test]
fn a_citation_of_no_rule_is_refused() {
    let known = BTreeSet::from([(1, 1), (1, 3)]);
    assert_eq!(faults("file", "rules 1.1 and 1.3", &known), [""; 0]);
    assert_eq!(
        faults("file", "a\n// see rule 1.2.", &known),
        ["file, line 2: there is no rule 1.2"]
    );
    assert_eq!(faults("file", "rules 1.1 to 1.4", &known), ["file, line 1: there is no rule 1.4"]);
}
