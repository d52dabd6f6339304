//! Messages for `write`: field ends, rooms, suffixes, every refusal and their order.

use super::desk::Desk;
use super::frames::{self, plain, write_line, KINDS};
use super::suffixes;
use crate::dice::Dice;
use crate::message::{fields, ANNOUNCE, DELAY_RESP, SYNC};

pub fn write(desk: &mut Desk) {
    extremes(desk);
    four_bits(desk);
    stamps(desk);
    rooms(desk);
    tlvs(desk);
    orders(desk);
    random(desk);
}

fn extremes(desk: &mut Desk) {
    desk.note("writing: each field at the ends of its word");
    for kind in KINDS {
        let room = plain(kind).fixed();
        for field in fields(kind).skip(1) {
            for value in [*field.word().start(), *field.word().end()] {
                let message = plain(kind).with(field.name, value);
                desk.say(write_line(&message, room));
            }
        }
    }
}

fn four_bits(desk: &mut Desk) {
    desk.note("writing: four-bit fields over 15");
    for sdo in [0, 1, 15, 16, 17, 240, 255] {
        for minor in [0, 1, 15, 16, 255] {
            let message = plain(SYNC).with("sdo", sdo).with("minor", minor);
            desk.say(write_line(&message, 46));
        }
    }
}

fn stamps(desk: &mut Desk) {
    desk.note("writing: seconds and nanoseconds at their ends");
    for kind in KINDS {
        for nanos in [0, 999_999_999, 1_000_000_000, 4_294_967_295] {
            for seconds in [0, (1 << 48) - 1, 1 << 48, (1 << 64) - 1] {
                let message = plain(kind).with("nanos", nanos).with("seconds", seconds);
                desk.say(write_line(&message, 64));
            }
        }
    }
}

fn rooms(desk: &mut Desk) {
    desk.note("writing: the lent part's room");
    for kind in KINDS {
        for suffix in [&[][..], &[0, 8, 0, 0], &[0, 8, 0, 2, 1, 2]] {
            let message = plain(kind).with_suffix(suffix);
            let length = message.octets().len();
            for room in [0, 1, 14, 33, 34, length - 1, length, length + 1, length + 14, 1_500] {
                desk.say(write_line(&message, room));
            }
        }
    }
}

fn tlvs(desk: &mut Desk) {
    desk.note("writing: TLVs whole and not");
    for kind in [SYNC, ANNOUNCE] {
        for suffix in suffixes::good().iter().chain(&suffixes::bad()) {
            let message = plain(kind).with_suffix(suffix);
            desk.say(write_line(&message, message.octets().len() + 2));
        }
    }
}

/// 5, 6 and 7 at once; those that 4 takes part in are among the long lines.
fn orders(desk: &mut Desk) {
    desk.note("writing: several refusals hold at once");
    for kind in [SYNC, DELAY_RESP, ANNOUNCE] {
        for set in 0..32_u32 {
            let wrong = |bit: u32| set >> bit & 1 == 1;
            let mut message = plain(kind).with_suffix(&[0, 8, 0, 0]);
            if wrong(0) {
                message = message.with("nanos", 1_000_000_000);
            }
            if wrong(1) {
                message = message.with("seconds", 1 << 48);
            }
            if wrong(2) {
                message = message.with("minor", 16);
            }
            if wrong(3) {
                message = message.with_suffix(&[0, 8, 0]);
            }
            let length = message.octets().len();
            let room = if wrong(4) { length - 1 } else { length };
            desk.say(write_line(&message, room));
        }
    }
}

fn random(desk: &mut Desk) {
    desk.note("writing: random messages");
    let mut dice = Dice::new(19);
    for _ in 0..30 {
        for kind in KINDS {
            let count = dice.below(4) as usize;
            let suffix = frames::tlvs(count, &mut dice);
            let message = frames::random(kind, &mut dice).with_suffix(&suffix);
            let room = message.octets().len() + dice.below(4) as usize;
            desk.say(write_line(&message, room));
        }
    }
}
