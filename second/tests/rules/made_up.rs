//! The test is tested: a small page over a small repository, with each fault in turn.

use crate::{faults, none_of, page};

const PLACES: &str = "> Definition: `a/specs/A:live` · Code: `a/src/a:Record::live` · \
                      Theorem: contract · Refused: `a/must-fail/late`";

/// A page without a fault.
fn small() -> String {
    let lines = [
        "# Rules",
        "## What to read",
        "some 3 lines",
        "| Live | `a/specs/A` |",
        "See `rule 1.1`, `a/proofs/B:at-most` and `a/specs/A`.",
        "There are 3 rules. 1 of them have the contract as their theorem and 1 none; \
         for 1 only a near wrong answer was tried and for 1 none.",
        "## Contents",
        "1. [One](#1-one)",
        "2. [Two](#2-two)",
        "## 1 One",
        "**1.1** A record lives for four intervals.",
        PLACES,
        "**1.3** One arrival is enough.",
        "> Definition: `a/specs/A:Seen` · Code: `a/src/a:Record` · \
         Theorem: `a/proofs/B:at-most` · Refused: near `a/tried/late`",
        "## 2 Two",
        "**2.1** See rule 1.3.",
        "> Definition: `a/specs/A:count` · Code: `a/src/a:WIDE` · \
         Theorem: none, since .. · Refused: none, since .. · Book: `a/specs/A:live`",
    ];
    lines.join("\n")
}

const DEFINITIONS: &str = "-- lives
use Nat
abbrev pub live : Record → Bool
  pub record Seen : Type 0 where
  count : ℕ";

const CODE: &str = "const WIDE: u8 = 1;
pub struct Record {}
impl Record {
    pub fn live(self) -> bool
        ensures { λ r. ⌜ r ≡ live self ⌝ }
    {
    }
    fn bare(self) -> bool
    {
    }
}";

/// A repository that holds what the page names.
fn repository(path: &str) -> Option<String> {
    let held = match path {
        "crates/a/specs/A.antt" => DEFINITIONS,
        "crates/a/src/a.rt" => CODE,
        "crates/a/proofs/B.antt" => "pub at-most : ℕ",
        "crates/a/must-fail/late.edit" | "crates/a/tried/late.edit" => "file: src/a.rt",
        _ => return None,
    };
    Some(held.to_string())
}

/// With one thing changed the page has this fault.
fn refused(old: &str, new: &str, because: &str) {
    let page = small();
    assert!(page.contains(old), "{old}");
    let found = faults::of(&page::read(&page.replacen(old, new, 1)), &repository);
    assert!(found.iter().any(|fault| fault.contains(because)), "{new}: {found:?}");
}

#[test]
fn a_sound_page_has_no_fault() {
    none_of(faults::of(&page::read(&small()), &repository));
}

#[test]
fn a_place_that_is_not_there_is_refused() {
    refused("a/specs/A:live`", "a/specs/B:live`", "there is no crates/a/specs/B.antt");
    refused("a/specs/A:live`", "a/specs/A:lives`", "crates/a/specs/A.antt does not have it");
    refused("a/specs/A:live`", "a/specs/A`", "any other file has one");
    refused("Record::live`", "Record::lives`", "crates/a/src/a.rt does not have it");
    refused("Record::live`", "Table::live`", "crates/a/src/a.rt does not have it");
    refused("a/src/a:Record`", "a/src/a:Rec`", "crates/a/src/a.rt does not have it");
    refused(
        "`a/must-fail/late`",
        "`a/must-fail/later`",
        "there is no crates/a/must-fail/later.edit",
    );
    refused("`a/must-fail/late`", "`a/must-fail/late:Record`", "an edit has no name in it");
    refused(
        "Theorem: `a/proofs/B:at-most",
        "Theorem: `a/proofs/B:at",
        "crates/a/proofs/B.antt does not have it",
    );
    refused("a/src/a:WIDE", "a/source/a:WIDE", "is no place");
    refused("Book: `a/specs/A:live`", "Book: `a/specs/A:dead`", "does not have it");
    refused("See `rule 1.1`, `a/proofs/B:at", "See `a/proofs/B:as", "line 5: `a/proofs/B:as-most`");
    refused("and `a/specs/A`.", "and `a/specs/C`.", "line 5: there is no crates/a/specs/C.antt");
}

#[test]
fn a_rule_without_its_places_is_refused() {
    refused(PLACES, "", "line 11: rule 1.1 has no places");
    refused(" · Refused: `a/must-fail/late`", "", "line 12: rule 1.1 has no Refused");
    refused("Definition: `a/specs/A:live` · ", "", "rule 1.1 has no Definition");
    refused("Refused: `a/must-fail/late`", "Refused: none", "has no Refused");
    refused("Refused: `a/must-fail/late`", "Refused: `a/specs/A:live`", "no place of Refused");
    refused("a/src/a:Record::live", "a/src/a:Record::bare", "none of its functions has an ensures");
    refused("Theorem: contract", "Proof: contract", "has Proof, which is no role");
    refused("**1.1** A record lives for four intervals.", "**1.1**", "says nothing");
}

#[test]
fn numbers_out_of_order_are_refused() {
    refused("**1.3** One", "**1.1** One", "rule 1.1 stands behind 1.1");
    refused("**2.1** See", "**1.4** See", "rule 1.4 stands in another section");
    refused("## 2 Two", "## 3 Two", "section 3 stands for 2");
    refused("2. [Two]", "2. [Too]", "the contents are not the sections");
}

#[test]
fn wrong_counts_are_refused() {
    refused("There are 3 rules", "There are 4 rules", "are not: There are 3 rules");
    refused("for 1 only a near", "for 0 only a near", "the page's counts");
    refused("near `a/tried/late`", "`a/tried/late`", "the page's counts");
    refused("some 3 lines", "some 12 lines", "have 3 lines, not some 12");
    refused("| Live | `a/specs/A` |", "| Live | `a/specs/B` |", "there is no file for");
}
