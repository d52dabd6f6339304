//! What a list comes to, unit by unit: measurements, masters, states, wipes with their causes, and
//! the samples between wipes.

use crate::answer::Answer;
use crate::answerer::Answerer;
use crate::call::{parse, Call};
use crate::compare::lines;
use crate::message::Identity;
use crate::watch::Line;
use std::collections::BTreeMap;

/// A whole list.
#[derive(Default)]
pub struct Story {
    /// How often each call was made, and each refusal given.
    pub calls: BTreeMap<String, usize>,
    pub refusals: BTreeMap<u8, usize>,
    pub bad_lines: usize,
    pub without_unit: usize,
    pub units: Vec<Life>,
}

/// A unit from its making to the next one's.
#[derive(Default)]
pub struct Life {
    /// The line of its making, counted from 1, and its own words.
    pub line: usize,
    pub settings: String,
    /// The first and the last now, in ms; none where no accepted call had one.
    pub span: Option<(i128, i128)>,
    pub measured: Vec<Measured>,
    pub wipes: Vec<Wipe>,
    /// From this now on, this master is chosen.
    pub masters: Vec<(i128, Option<Identity>)>,
    /// From this now on, the unit shows this port state and this servo state.
    pub states: Vec<(i128, &'static str, &'static str)>,
    /// The samples from wipe to wipe; the last ones at the end.
    pub windows: Vec<Window>,
}

/// An accepted measurement.
pub struct Measured {
    /// The wipes before it.
    pub wipes: usize,
    pub now: i128,
    pub offset: i128,
    pub output: i128,
}

pub struct Wipe {
    pub line: usize,
    pub now: i128,
    pub reference: i128,
    pub cause: &'static str,
}

/// Samples that no wipe stands between.
#[derive(Default)]
pub struct Window {
    /// The wipes before it.
    pub wipes: usize,
    pub samples: Vec<Sample>,
    /// The drift line after the last sample, where one is due.
    pub line: Option<Line>,
    /// What ended it; none at the end of the list.
    pub ended: Option<&'static str>,
    /// How many samples the set window holds.
    pub holds: usize,
}

#[derive(Clone)]
pub struct Sample {
    pub reference: i128,
    pub y: i128,
    pub valid: bool,
}

/// Tells a list's story.
pub fn tell(list: &[u8]) -> Story {
    let mut story = Story::default();
    let mut answerer = Answerer::default();
    let mut origin = None;
    for (place, line) in lines(list).enumerate() {
        let call = parse(line);
        let Some(answer) = answerer.line(line) else {
            continue;
        };
        let word = String::from_utf8_lossy(line).split(' ').next().unwrap_or_default().to_string();
        story.count(&word, &answer);
        let Some(call) = call else {
            continue;
        };
        if let (Call::Unit(settings), Answer::Ok) = (&call, &answer) {
            let text = String::from_utf8_lossy(line).into_owned();
            story.units.push(Life::new(place + 1, text, settings.window as usize));
            origin = None;
        }
        if let Some(life) = story.units.last_mut() {
            life.follow(place + 1, &call, &answer, &mut origin);
            life.look(&mut answerer, &answer);
        }
    }
    story
}

impl Story {
    fn count(&mut self, word: &str, answer: &Answer) {
        match answer {
            Answer::BadLine => {
                self.bad_lines += 1;
                return;
            }
            Answer::NoUnit => self.without_unit += 1,
            Answer::Refused(number) => *self.refusals.entry(*number as u8).or_default() += 1,
            _ => {}
        }
        *self.calls.entry(word.to_string()).or_default() += 1;
    }
}

/// The now that a call carries.
fn now_of(call: &Call) -> Option<i128> {
    match call {
        Call::Receive { now, .. }
        | Call::Request { now, .. }
        | Call::Sent { now, .. }
        | Call::Time { now } => Some(*now),
        _ => None,
    }
}

/// Why this answer wiped; none where it did not.
fn cause(call: &Call, answer: &Answer) -> Option<&'static str> {
    match answer {
        Answer::Chosen { wiped: true, master: None } => Some("master lost"),
        Answer::Chosen { wiped: true, .. } => Some("new master"),
        Answer::BackWiped if matches!(call, Call::Tick { .. }) => Some("back (pulse)"),
        Answer::BackWiped => Some("back (stamp)"),
        Answer::RangeWiped => Some("range"),
        Answer::JumpWiped => Some("jump"),
        Answer::Path { wiped: true } => Some("path"),
        Answer::Step { .. } => Some("step"),
        Answer::Wiped => Some("reset"),
        _ => None,
    }
}

impl Life {
    fn new(line: usize, settings: String, holds: usize) -> Life {
        let window = Window { holds, ..Window::default() };
        Life { line, settings, windows: vec![window], ..Life::default() }
    }

    /// The now of the last accepted call.
    pub fn now(&self) -> i128 {
        self.span.map_or(0, |(_, last)| last)
    }

    fn window(&mut self) -> &mut Window {
        self.windows.last_mut().expect("a unit has a window from its making on")
    }

    fn follow(&mut self, line: usize, call: &Call, answer: &Answer, origin: &mut Option<i128>) {
        if matches!(answer, Answer::Refused(_) | Answer::NoUnit) {
            return;
        }
        if let Some(now) = now_of(call) {
            self.span = Some((self.span.map_or(now, |(first, _)| first), now));
        }
        match (call, answer) {
            (Call::Tick { reference, clock }, Answer::Taken { valid }) => {
                let apart = clock - reference;
                let y = apart - *origin.get_or_insert(apart);
                self.window().samples.push(Sample { reference: *reference, y, valid: *valid });
            }
            (_, Answer::Measured { offset, output, .. }) => {
                let (wipes, now) = (self.wipes.len(), self.now());
                self.measured.push(Measured { wipes, now, offset: *offset, output: *output });
            }
            (_, Answer::Chosen { master, .. }) => {
                let held = self.masters.last().map(|(_, held)| *held);
                self.masters.extend((held != Some(*master)).then(|| (self.now(), *master)));
            }
            _ => {}
        }
        if let Some(cause) = cause(call, answer) {
            self.wipe(line, cause);
            *origin = None;
        }
    }

    fn wipe(&mut self, line: usize, cause: &'static str) {
        let now = self.now();
        let last = self.windows.iter().rev().find_map(|window| window.samples.last());
        let reference = last.map_or(0, |sample| sample.reference);
        self.wipes.push(Wipe { line, now, reference, cause });
        let (wipes, window) = (self.wipes.len(), self.window());
        window.ended = Some(cause);
        let holds = window.holds;
        self.windows.push(Window { wipes, holds, ..Window::default() });
    }

    /// Asks what no call of the list may have asked: neither answer changes the unit.
    fn look(&mut self, answerer: &mut Answerer, answer: &Answer) {
        if let Some(Answer::Shown(shown)) = answerer.line(b"show") {
            let state = (shown.port, shown.servo);
            if self.states.last().map(|(_, port, servo)| (*port, *servo)) != Some(state) {
                self.states.push((self.now(), state.0, state.1));
            }
        }
        if let Answer::Taken { .. } = answer {
            self.window().line = match answerer.line(b"line") {
                Some(Answer::Line { line, .. }) => Some(line),
                _ => None,
            };
        }
    }
}

#[cfg(test)]
mod tests {
    use super::*;

    const UNIT: &str = "unit 0 0080a1fffe000007 1 0 0 700 300 100000 4 2 0 2000000 1000000 2000000";

    #[test]
    fn the_windows_between_wipes() {
        let list = format!(
            "line\nshow 1\n{UNIT}\ntick 0 7\ntick 1000000000 1000000057\nline\nreset\nline\ntick 5 5\n"
        );
        let story = tell(list.as_bytes());
        assert_eq!((story.bad_lines, story.without_unit), (1, 1));
        assert_eq!((story.refusals.get(&21), story.calls["line"]), (Some(&1), 3));
        let life = &story.units[0];
        let windows: Vec<_> =
            life.windows.iter().map(|one| (one.samples.len(), one.ended)).collect();
        assert_eq!(windows, [(2, Some("reset")), (1, None)]);
        let line = life.windows[0].line.as_ref().unwrap();
        assert_eq!((line.slope, line.over), (50, 1));
        assert_eq!((life.windows[0].samples[1].y, life.windows[1].samples[0].y), (50, 0));
        assert_eq!((life.wipes[0].cause, life.wipes[0].line), ("reset", 7));
    }

    /// Every wipe of the lists has a cause, and there are as many as the unit counts.
    #[test]
    fn every_wipe_has_its_cause() {
        let list = crate::lists::random::list(3, 3_000);
        let story = tell(&list);
        let mut answerer = Answerer::default();
        let mut counts = Vec::new();
        for line in lines(&list) {
            if matches!(parse(line), Some(Call::Unit(_))) && answerer.line(line) == Some(Answer::Ok)
            {
                counts.push(0);
            } else {
                answerer.line(line);
            }
            if let Some(Answer::Shown(shown)) = answerer.line(b"show") {
                *counts.last_mut().unwrap() = shown.wipes as usize;
            }
        }
        let told: Vec<usize> = story.units.iter().map(|life| life.wipes.len()).collect();
        assert_eq!(told, counts);
    }
}
