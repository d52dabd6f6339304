//! The calls of the bench's page and how a line is read as one of them.

use crate::message::{fields, fixed_length, Message};
use crate::settings::Settings;
use crate::text::{self, Range, I64, U16, U32, U64, U8};

/// A stamp as the caller gives it: seconds may be over 48 bits, nanoseconds over a second.
#[derive(Clone, Copy, Debug, PartialEq)]
pub struct Stamp {
    pub seconds: i128,
    pub nanos: i128,
}

#[derive(Clone, Debug, PartialEq)]
pub enum Call {
    Unit(Settings),
    Lend(usize),
    Read(Vec<u8>),
    Write { message: Message, room: usize },
    Receive { now: i128, stamp: Stamp, octets: Vec<u8> },
    Request { now: i128, length: usize },
    Sent { now: i128, sequence: i128, stamp: Stamp },
    Time { now: i128 },
    Reset,
    Tick { reference: i128, clock: i128 },
    Line,
    Show,
}

/// The call that a line is, or none where it is a bad line.
pub fn parse(line: &[u8]) -> Option<Call> {
    let all = text::words(line)?;
    let (name, rest) = all.split_first()?;
    let mut words = Words(rest);
    let call = match *name {
        "unit" => Call::Unit(unit(&mut words)?),
        "lend" => Call::Lend(words.number(&(0..=8))? as usize),
        "read" => Call::Read(words.octets()?),
        "write" => write(&mut words)?,
        "receive" => receive(&mut words)?,
        "request" => request(&mut words)?,
        "sent" => sent(&mut words)?,
        "time" => Call::Time { now: words.number(&U64)? },
        "reset" => Call::Reset,
        "tick" => tick(&mut words)?,
        "line" => Call::Line,
        "show" => Call::Show,
        _ => return None,
    };
    // A word too many is a bad line too.
    words.0.is_empty().then_some(call)
}

/// The words of a line that are still to be read.
struct Words<'a>(&'a [&'a str]);

impl<'a> Words<'a> {
    fn next(&mut self) -> Option<&'a str> {
        let (first, rest) = self.0.split_first()?;
        self.0 = rest;
        Some(first)
    }

    fn number(&mut self, range: &Range) -> Option<i128> {
        text::number(self.next()?, range)
    }

    fn clock(&mut self) -> Option<i128> {
        text::clock(self.next()?)
    }

    fn octets(&mut self) -> Option<Vec<u8>> {
        text::octets(self.next()?)
    }

    fn stamp(&mut self) -> Option<Stamp> {
        Some(Stamp { seconds: self.number(&U64)?, nanos: self.number(&U32)? })
    }
}

fn unit(words: &mut Words) -> Option<Settings> {
    Some(Settings {
        domain: words.number(&U8)?,
        clock: words.clock()?,
        port: words.number(&U16)?,
        announce: words.number(&I64)?,
        sync: words.number(&I64)?,
        kp: words.number(&I64)?,
        ki: words.number(&I64)?,
        limit: words.number(&I64)?,
        window: words.number(&I64)?,
        minimum: words.number(&I64)?,
        holdoff: words.number(&I64)?,
        tolerance: words.number(&I64)?,
        spike: words.number(&I64)?,
        jump: words.number(&I64)?,
    })
}

fn write(words: &mut Words) -> Option<Call> {
    let kind = text::number(words.0.first()?, &U8)?;
    // "`write` with any other kind is answered `bad line`."
    fixed_length(kind)?;
    let value = |field: &crate::message::Field| {
        if field.clock {
            words.clock()
        } else {
            words.number(&field.word())
        }
    };
    let values = fields(kind).map(value).collect::<Option<Vec<i128>>>()?;
    let suffix = words.octets()?;
    Some(Call::Write {
        message: Message::from_values(values, suffix),
        room: words.number(&(0..=70_000))? as usize,
    })
}

fn receive(words: &mut Words) -> Option<Call> {
    Some(Call::Receive { now: words.number(&U64)?, stamp: words.stamp()?, octets: words.octets()? })
}

fn request(words: &mut Words) -> Option<Call> {
    Some(Call::Request { now: words.number(&U64)?, length: words.number(&(0..=2_000))? as usize })
}

fn sent(words: &mut Words) -> Option<Call> {
    Some(Call::Sent {
        now: words.number(&U64)?,
        sequence: words.number(&U16)?,
        stamp: words.stamp()?,
    })
}

fn tick(words: &mut Words) -> Option<Call> {
    Some(Call::Tick { reference: words.number(&I64)?, clock: words.number(&I64)? })
}
