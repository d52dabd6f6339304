//! The lists reach what they are to reach: every refusal, every answer, enough calls.

use second::answerer::{answers, Answerer};
use second::lists::{self, random};
use std::collections::BTreeSet;

/// Every answered line of a list with its answer.
fn pairs(list: &[u8]) -> Vec<(String, String)> {
    let mut answerer = Answerer::default();
    let lines = list.split_inclusive(|octet| *octet == b'\n');
    lines
        .filter_map(|line| {
            let line = line.strip_suffix(b"\n").unwrap_or(line);
            let answer = answerer.line(line)?.to_string();
            Some((String::from_utf8_lossy(line).into_owned(), answer))
        })
        .collect()
}

/// The numbers of refusal that these calls meet.
fn refusals(pairs: &[(String, String)], call: &str) -> BTreeSet<u8> {
    let of_call = pairs.iter().filter(|(line, _)| line.starts_with(call));
    of_call.filter_map(|(_, answer)| answer.strip_prefix("refused ")?.parse().ok()).collect()
}

fn set(numbers: impl IntoIterator<Item = u8>) -> BTreeSet<u8> {
    numbers.into_iter().collect()
}

#[test]
fn wire_reaches_every_refusal_of_reading_and_of_writing() {
    let pairs = pairs(&lists::named("wire").unwrap());
    assert_eq!(refusals(&pairs, "read "), set(1..=6));
    assert_eq!(refusals(&pairs, "write "), set(4..=7));
}

#[test]
fn wire_makes_no_unit_and_stays_small() {
    let list = lists::named("wire").unwrap();
    let pairs = pairs(&list);
    let units = pairs.iter().filter(|(line, _)| line.starts_with("unit"));
    assert!(units.clone().count() > 50);
    assert!(units.clone().all(|(_, answer)| answer == "bad line"));
    assert!(pairs.len() > 3_000);
    assert!(list.len() < 3_000_000, "{} octets", list.len());
}

/// Every word that a call of a unit has is also met without a unit.
#[test]
fn wire_asks_every_unit_call_without_a_unit() {
    let pairs = pairs(&lists::named("wire").unwrap());
    for call in ["receive", "request", "sent", "time", "reset", "tick", "line", "show"] {
        let met = pairs.iter().any(|(line, answer)| line.starts_with(call) && answer == "no unit");
        assert!(met, "{call}");
    }
}

#[test]
fn whole_reaches_every_refusal() {
    let pairs = pairs(&lists::whole());
    assert_eq!(refusals(&pairs, ""), set(1..=21));
    assert_eq!(refusals(&pairs, "receive "), set((1..=6).chain(8..=19)));
    assert_eq!(refusals(&pairs, "request "), set([7, 9, 16, 18]));
    assert_eq!(refusals(&pairs, "sent "), set([5, 9, 16, 17, 18]));
    assert_eq!(refusals(&pairs, "time "), set([8, 9]));
    assert_eq!(refusals(&pairs, "tick "), set([20]));
    assert_eq!(refusals(&pairs, "line"), set([21]));
    assert_eq!(refusals(&pairs, "unit "), set([8]));
    assert_eq!(refusals(&pairs, "show"), set([]));
    assert_eq!(refusals(&pairs, "reset"), set([]));
    assert_eq!(refusals(&pairs, "lend "), set([]));
    assert!(pairs.len() >= 20_000, "{} calls", pairs.len());
}

/// Call and answer of every row of the bench's page; `*` stands for anything.
const ANSWERS: [(&str, &str); 48] = [
    ("unit ", "ok"),
    ("lend ", "ok"),
    ("read ", "message kind=0 *"),
    ("read ", "message kind=1 *"),
    ("read ", "message kind=8 *"),
    ("read ", "message kind=9 *requesting=*"),
    ("read ", "message kind=11 *grandmaster=*"),
    ("read ", "message *suffix=-"),
    ("read ", "message *suffix=0*"),
    ("write 0 ", "wrote *"),
    ("write 1 ", "wrote *"),
    ("write 8 ", "wrote *"),
    ("write 9 ", "wrote *"),
    ("write 11 ", "wrote *ee"),
    ("receive ", "chosen *-1"),
    ("receive ", "chosen *-2 wiped"),
    ("receive ", "chosen none"),
    ("receive ", "chosen none wiped"),
    ("time ", "chosen *-1"),
    ("time ", "chosen *-1 wiped"),
    ("time ", "chosen none"),
    ("time ", "chosen none wiped"),
    ("receive ", "held"),
    ("receive ", "back wiped"),
    ("receive ", "paired"),
    ("receive ", "measured delay=*used=*offset=*output=*"),
    ("receive ", "neg"),
    ("receive ", "long"),
    ("receive ", "huge"),
    ("receive ", "huge faulty"),
    ("receive ", "path"),
    ("receive ", "path wiped"),
    ("receive ", "step offset=* wiped"),
    ("request ", "asked sequence=* frame=ee*"),
    ("sent ", "stamped"),
    ("sent ", "back wiped"),
    ("reset", "wiped"),
    ("tick ", "taken valid"),
    ("tick ", "taken invalid"),
    ("tick ", "back wiped"),
    ("tick ", "range wiped"),
    ("tick ", "jump wiped"),
    ("line", "line level=*slope=*over=*n=*wipes=*ppm=*"),
    ("show", "port=faulty servo=*"),
    ("show", "port=listening servo=adjusting*"),
    ("show", "port=uncalibrated servo=adjusting*"),
    ("show", "port=slave servo=holdover*"),
    ("show", "port=slave servo=tracking*"),
];

/// Whether a text has the form's parts, in order, from its beginning to its end.
fn has_form(text: &str, form: &str) -> bool {
    let mut parts = form.split('*');
    let first = parts.next().unwrap_or_default();
    let Some(mut rest) = text.strip_prefix(first) else {
        return false;
    };
    let parts: Vec<&str> = parts.collect();
    let Some((last, middle)) = parts.split_last() else {
        return rest.is_empty();
    };
    for part in middle {
        match rest.split_once(part) {
            Some((_, behind)) => rest = behind,
            None => return false,
        }
    }
    rest.ends_with(last)
}

fn missing(pairs: &[(String, String)]) -> Vec<String> {
    let met = |call: &str, form: &str| {
        pairs.iter().any(|(line, answer)| line.starts_with(call) && has_form(answer, form))
    };
    ANSWERS
        .iter()
        .filter(|(call, form)| !met(call, form))
        .map(|(call, form)| format!("{call}: {form}"))
        .collect()
}

#[test]
fn whole_reaches_every_answer() {
    let pairs = pairs(&lists::whole());
    assert_eq!(missing(&pairs), Vec::<String>::new());
    for answer in ["bad line", "no unit"] {
        assert!(pairs.iter().any(|(_, given)| given == answer));
    }
}

/// No list depends on what comes before it: the answers to all are all answers.
#[test]
fn lists_can_stand_behind_one_another() {
    let names = ["wire", "masters", "exchange", "watch", "card"];
    let lists = names.map(|name| lists::named(name).unwrap());
    let apart: Vec<u8> = lists.iter().flat_map(|list| answers(list)).collect();
    assert!(answers(&lists.concat()) == apart);
}

#[test]
fn random_lists_are_as_long_as_asked_and_the_same_every_time() {
    for (seed, count) in [(0, 1), (1, 500), (2, 1_001)] {
        let list = random::list(seed, count);
        assert_eq!(pairs(&list).len(), count);
        assert_eq!(list.iter().filter(|octet| **octet == b'\n').count(), count);
        assert!(list == random::list(seed, count));
    }
    assert!(random::list(1, 500) != random::list(2, 500));
}

#[test]
fn random_lists_reach_deep_states() {
    let all: Vec<(String, String)> =
        (1..=20).flat_map(|seed| pairs(&random::list(seed, 2_000))).collect();
    assert_eq!(refusals(&all, ""), set(1..=21));
    assert_eq!(missing(&all), Vec::<String>::new());
}

/// A refusal leaves all as it was (rule 3.51).
#[test]
fn a_refused_call_changes_nothing() {
    let mut every = vec![random::list(1, 3_000)];
    every.extend(["masters", "exchange", "card"].map(|name| lists::named(name).unwrap()));
    for list in every {
        let mut answerer = Answerer::default();
        for line in list.split(|octet| *octet == b'\n') {
            let before = answerer.clone();
            let Some(answer) = answerer.line(line) else {
                continue;
            };
            let answer = answer.to_string();
            let same = ["refused", "bad line", "no unit", "line", "port", "message", "wrote"];
            if same.iter().any(|start| answer.starts_with(start)) {
                assert!(answerer == before, "{}", String::from_utf8_lossy(line));
            }
        }
    }
}

/// Every output shown against the last settings' limit (rule 8.8).
#[test]
fn outputs_stay_within_the_limit() {
    let mut limit = 0;
    for (call, answer) in pairs(&lists::whole()) {
        if call.starts_with("unit") && answer == "ok" {
            limit = call.split(' ').nth(8).unwrap().parse::<i64>().unwrap();
        }
        if let Some((_, behind)) = answer.split_once("output=") {
            let output: i64 = behind.split(' ').next().unwrap().parse().unwrap();
            assert!(output.abs() <= limit, "{call}: {answer}");
        }
    }
}
