//! A list of calls from its first line to its last: each line's answer.

use crate::answer::Answer;
use crate::call::{parse, Call};
use crate::message;
use crate::refusal::Refusal;
use crate::text::passed_over;
use crate::unit::Unit;
use std::io::{self, BufRead, Write};

/// What an octet of a lent frame is before the call.
const BEFORE: u8 = 0xee;

#[derive(Clone, Debug, PartialEq)]
pub struct Answerer {
    /// How many records of the table later calls are lent.
    lent: usize,
    unit: Option<Unit>,
}

impl Default for Answerer {
    fn default() -> Answerer {
        Answerer { lent: 5, unit: None }
    }
}

impl Answerer {
    /// The answer to a line without its newline; none where the line is passed over.
    pub fn line(&mut self, line: &[u8]) -> Option<Answer> {
        if passed_over(line) {
            return None;
        }
        let answer = match parse(line) {
            Some(call) => self.call(call),
            None => Answer::BadLine,
        };
        Some(answer)
    }

    fn call(&mut self, call: Call) -> Answer {
        let answered = match call {
            Call::Lend(count) => {
                self.lent = count;
                Ok(Answer::Ok)
            }
            Call::Read(octets) => message::read(&octets).map(Answer::Message),
            Call::Write { message, room } => {
                let mut lent = vec![BEFORE; room];
                message::write(&message, &mut lent).map(|()| Answer::Wrote(lent))
            }
            // A refused `unit` line leaves the unit that was there.
            Call::Unit(settings) => Unit::fresh(settings).map(|unit| {
                self.unit = Some(unit);
                Answer::Ok
            }),
            other => match &mut self.unit {
                Some(unit) => unit_call(unit, self.lent, other),
                None => Ok(Answer::NoUnit),
            },
        };
        answered.unwrap_or_else(Answer::Refused)
    }
}

fn unit_call(unit: &mut Unit, lent: usize, call: Call) -> Result<Answer, Refusal> {
    match call {
        Call::Receive { now, stamp, octets } => unit.receive(lent, now, stamp, &octets),
        Call::Request { now, length } => unit.request(now, &mut vec![BEFORE; length]),
        Call::Sent { now, sequence, stamp } => unit.sent(now, sequence, stamp),
        Call::Time { now } => unit.time(lent, now),
        Call::Reset => Ok(unit.reset()),
        Call::Tick { reference, clock } => unit.tick(reference, clock),
        Call::Line => unit.line(),
        Call::Show => Ok(unit.show()),
        other => unreachable!("{other:?} is no call of a unit"),
    }
}

/// Reads a list of calls and writes its answers, a line each. A last line without a newline is a
/// line like any other.
pub fn answer(mut calls: impl BufRead, answers: impl Write) -> io::Result<()> {
    let mut answerer = Answerer::default();
    let mut out = io::BufWriter::new(answers);
    let mut line = Vec::new();
    while calls.read_until(b'\n', &mut line)? > 0 {
        if line.last() == Some(&b'\n') {
            line.pop();
        }
        if let Some(answer) = answerer.line(&line) {
            writeln!(out, "{answer}")?;
        }
        line.clear();
    }
    out.flush()
}

/// The answers to a whole list, as text.
pub fn answers(calls: &[u8]) -> Vec<u8> {
    let mut out = Vec::new();
    answer(calls, &mut out).expect("memory can be read and written");
    out
}

#[cfg(test)]
mod tests {
    use super::*;

    fn text(calls: &[u8]) -> String {
        String::from_utf8(answers(calls)).unwrap()
    }

    #[test]
    fn a_last_line_may_lack_its_newline() {
        assert_eq!(text(b"show"), "no unit\n");
        assert_eq!(text(b"show\n"), "no unit\n");
        assert_eq!(text(b"\n\nshow\n\n"), "no unit\n");
        assert_eq!(text(b""), "");
        assert_eq!(text(b"#"), "");
    }

    #[test]
    fn bad_lines_come_before_no_unit() {
        assert_eq!(
            text(b"show 1\ntime\ntime 0\nShow\n"),
            "bad line\nbad line\nno unit\nbad line\n"
        );
    }

    #[test]
    fn lend_is_no_unit_call() {
        assert_eq!(text(b"lend 0\nlend 8\nlend 9\nlend -1\n"), "ok\nok\nbad line\nbad line\n");
    }

    #[test]
    fn a_long_line_is_a_call_up_to_its_limit() {
        let line = |zeros: usize| [b"time ".to_vec(), vec![b'0'; zeros]].concat();
        assert_eq!(text(&line(262_139)), "no unit\n");
        assert_eq!(text(&line(262_140)), "bad line\n");
        assert_eq!(text(&[vec![b'#'], line(262_140)].concat()), "");
    }
}
