//! The answers of the bench's page and their text.

use crate::message::{Identity, Message, DELAY_RESP};
use crate::refusal::Refusal;
use crate::text::hex;
use crate::watch::Line;
use std::fmt;

#[derive(Clone, Debug, PartialEq)]
pub enum Answer {
    BadLine,
    NoUnit,
    Refused(Refusal),
    Ok,
    Message(Message),
    Wrote(Vec<u8>),
    Chosen { master: Option<Identity>, wiped: bool },
    Held,
    Paired,
    Measured { delay: i128, used: i128, offset: i128, output: i128 },
    Neg,
    Long,
    Huge { faulty: bool },
    Path { wiped: bool },
    Step { offset: i128 },
    Asked { sequence: i128, frame: Vec<u8> },
    Stamped,
    Wiped,
    Taken { valid: bool },
    BackWiped,
    RangeWiped,
    JumpWiped,
    Line { line: Line, wipes: i128 },
    Shown(Shown),
}

/// What `show` tells.
#[derive(Clone, Debug, PartialEq)]
pub struct Shown {
    pub port: &'static str,
    pub servo: &'static str,
    pub output: i128,
    pub now: i128,
    pub master: Option<Identity>,
    pub wipes: i128,
    pub sequence: i128,
}

impl fmt::Display for Answer {
    fn fmt(&self, out: &mut fmt::Formatter) -> fmt::Result {
        match self {
            Answer::BadLine => write!(out, "bad line"),
            Answer::NoUnit => write!(out, "no unit"),
            Answer::Refused(number) => write!(out, "refused {}", *number as u8),
            Answer::Ok => write!(out, "ok"),
            Answer::Message(message) => write_message(message, out),
            Answer::Wrote(lent) => write!(out, "wrote {}", hex(lent)),
            Answer::Asked { sequence, frame } => {
                write!(out, "asked sequence={sequence} frame={}", hex(frame))
            }
            Answer::Stamped => write!(out, "stamped"),
            Answer::Wiped => write!(out, "wiped"),
            Answer::Taken { valid: true } => write!(out, "taken valid"),
            Answer::Taken { valid: false } => write!(out, "taken invalid"),
            Answer::BackWiped => write!(out, "back wiped"),
            Answer::RangeWiped => write!(out, "range wiped"),
            Answer::JumpWiped => write!(out, "jump wiped"),
            Answer::Line { line, wipes } => write_line(line, *wipes, out),
            Answer::Shown(shown) => write_shown(shown, out),
            received => write_received(received, out),
        }
    }
}

/// What a received message, or a time call, is answered.
fn write_received(answer: &Answer, out: &mut fmt::Formatter) -> fmt::Result {
    match answer {
        Answer::Chosen { master, wiped } => {
            write!(out, "chosen {}{}", master_text(*master), mark(*wiped, " wiped"))
        }
        Answer::Held => write!(out, "held"),
        Answer::Paired => write!(out, "paired"),
        Answer::Measured { delay, used, offset, output } => {
            write!(out, "measured delay={delay} used={used} offset={offset} output={output}")
        }
        Answer::Neg => write!(out, "neg"),
        Answer::Long => write!(out, "long"),
        Answer::Huge { faulty } => write!(out, "huge{}", mark(*faulty, " faulty")),
        Answer::Path { wiped } => write!(out, "path{}", mark(*wiped, " wiped")),
        Answer::Step { offset } => write!(out, "step offset={offset} wiped"),
        other => unreachable!("{other:?} is no answer to a message"),
    }
}

fn mark(stands: bool, text: &'static str) -> &'static str {
    if stands {
        text
    } else {
        ""
    }
}

/// CLOCK-PORT: 16 lower-case hex digits and a decimal port.
pub fn identity_text(identity: Identity) -> String {
    format!("{:016x}-{}", identity.clock(), identity.port())
}

fn master_text(master: Option<Identity>) -> String {
    master.map_or(String::from("none"), identity_text)
}

fn write_message(message: &Message, out: &mut fmt::Formatter) -> fmt::Result {
    write!(out, "message")?;
    for (field, value) in message.each() {
        // The two fields of a Delay_Resp's body are written as one.
        if field.name.starts_with("requesting") {
            continue;
        }
        if field.clock {
            write!(out, " {}={value:016x}", field.name)?;
        } else {
            write!(out, " {}={value}", field.name)?;
        }
    }
    if message.kind() == DELAY_RESP {
        write!(out, " requesting={}", identity_text(message.requesting()))?;
    }
    write!(out, " suffix={}", hex(&message.suffix))
}

fn write_line(line: &Line, wipes: i128, out: &mut fmt::Formatter) -> fmt::Result {
    write!(out, "line level={} slope={}", line.level, line.slope)?;
    write!(out, " over={} n={}", line.over, line.n)?;
    write!(out, " wipes={wipes} ppm={:016x}", line.ppm)
}

fn write_shown(shown: &Shown, out: &mut fmt::Formatter) -> fmt::Result {
    write!(out, "port={} servo={}", shown.port, shown.servo)?;
    write!(out, " output={} now={}", shown.output, shown.now)?;
    write!(out, " master={}", master_text(shown.master))?;
    write!(out, " wipes={} sequence={}", shown.wipes, shown.sequence)
}
