//! The calls of a list, with what a later one says of an earlier one's answer: the sequenceId of a
//! request, which moves when a request before it is left out.

use super::calls;
use crate::answerer::{answers, Answerer};
use crate::call::{parse, Call};
use crate::text::hex;
use std::collections::HashMap;

/// One call of the list.
#[derive(Clone, Debug)]
struct One {
    line: Vec<u8>,
    /// Its place in the list as it was.
    place: usize,
    /// The place of the request whose sequenceId it names.
    asked: Option<usize>,
}

#[derive(Clone, Debug)]
pub struct Calls(Vec<One>);

/// Where the sequenceId of a message stands.
const SEQUENCE: std::ops::Range<usize> = 30..32;

/// The sequenceId of a request that a call names: that of `sent`, and of a Delay_Resp.
fn names(call: &Call) -> Option<i128> {
    match call {
        Call::Sent { sequence, .. } => Some(*sequence),
        Call::Receive { octets, .. } if octets.first().is_some_and(|first| first % 16 == 9) => {
            let two = octets.get(SEQUENCE)?;
            Some(i128::from(two[0]) * 256 + i128::from(two[1]))
        }
        _ => None,
    }
}

/// The line of a call with another sequenceId.
fn renamed(line: &[u8], sequence: i128) -> Vec<u8> {
    match parse(line) {
        Some(Call::Sent { now, stamp, .. }) => {
            format!("sent {now} {sequence} {} {}", stamp.seconds, stamp.nanos).into_bytes()
        }
        Some(Call::Receive { now, stamp, mut octets }) => {
            octets[SEQUENCE].copy_from_slice(&(sequence as u16).to_be_bytes());
            let (seconds, nanos) = (stamp.seconds, stamp.nanos);
            format!("receive {now} {seconds} {nanos} {}", hex(&octets)).into_bytes()
        }
        _ => line.to_vec(),
    }
}

/// The sequenceId that an answer to `request` gives.
fn asked(answer: &str) -> Option<i128> {
    answer.strip_prefix("asked sequence=")?.split(' ').next()?.parse().ok()
}

impl Calls {
    pub fn of(list: &[u8]) -> Calls {
        let mut answerer = Answerer::default();
        let mut requests = HashMap::new();
        let one = |(place, line): (usize, &[u8])| {
            let named = parse(line).as_ref().and_then(names);
            let answer = answerer.line(line).map(|answer| answer.to_string()).unwrap_or_default();
            if let Some(sequence) = asked(&answer) {
                requests.insert(sequence, place);
            }
            let asked = named.and_then(|sequence| requests.get(&sequence).copied());
            One { line: line.to_vec(), place, asked }
        };
        Calls(calls(list).into_iter().enumerate().map(one).collect())
    }

    pub fn len(&self) -> usize {
        self.0.len()
    }

    pub fn is_empty(&self) -> bool {
        self.0.is_empty()
    }

    /// The first calls, so many.
    pub fn first(&self, count: usize) -> Calls {
        Calls(self.0.iter().take(count).cloned().collect())
    }

    /// All but so many calls from a place on.
    pub fn without(&self, from: usize, count: usize) -> Calls {
        let to = (from + count).min(self.0.len());
        Calls([&self.0[..from], &self.0[to..]].concat())
    }

    pub fn line(&self, at: usize) -> &[u8] {
        &self.0[at].line
    }

    /// Whether the call at a place wipes, all before it being made.
    pub fn wipes(&self, at: usize) -> bool {
        let answers = answers(&self.first(at + 1).text());
        answers.ends_with(b"wiped\n")
    }

    /// All calls, with another line at a place.
    pub fn with(&self, at: usize, line: String) -> Calls {
        let mut calls = self.clone();
        calls.0[at].line = line.into_bytes();
        calls
    }

    /// The list, each sequenceId of a request as the requests that are left give it.
    pub fn text(&self) -> Vec<u8> {
        let mut answerer = Answerer::default();
        let mut given = HashMap::new();
        let mut text = Vec::new();
        for one in &self.0 {
            let sequence = one.asked.and_then(|place| given.get(&place));
            let line = match sequence {
                Some(sequence) => renamed(&one.line, *sequence),
                None => one.line.clone(),
            };
            let answer = answerer.line(&line).map(|answer| answer.to_string());
            if let Some(sequence) = answer.as_deref().and_then(asked) {
                given.insert(one.place, sequence);
            }
            text.extend(line);
            text.push(b'\n');
        }
        text
    }
}

#[cfg(test)]
mod tests {
    use super::*;
    use crate::lists::random;

    #[test]
    fn a_whole_list_stays_as_it_is() {
        for seed in 1..=5 {
            let list = random::list(seed, 500);
            let again = Calls::of(&list);
            assert_eq!(again.len(), 500);
            assert!(again.text() == list);
        }
    }

    #[test]
    fn the_numbers_of_requests_move_up() {
        use crate::lists::desk::Desk;
        use crate::lists::hall::Hall;
        let mut hall = Hall::with_master(Desk::default(), crate::lists::settings::exchange());
        hall.request(58);
        hall.measure(10_000, 250);
        let list = hall.close().text();
        // Five calls stand before the Sync: lend, unit, two Announces and the lone request.
        let shorter = Calls::of(&list).without(4, 1).text();
        let given = String::from_utf8(answers(&shorter)).unwrap();
        assert!(given.contains("asked sequence=0 "), "{given}");
        assert!(
            given.ends_with("measured delay=10000 used=10000 offset=250 output=250\n"),
            "{given}"
        );
    }
}
