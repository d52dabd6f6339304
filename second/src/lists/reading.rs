//! Frames for `read`: good ones, every edge of a length, every refusal and their order.

use super::desk::Desk;
use super::frames::{self, plain, read_line, with_length, KINDS};
use super::suffixes;
use crate::dice::Dice;
use crate::message::{fields, fixed_length, ANNOUNCE, SYNC};

pub fn write(desk: &mut Desk) {
    captured(desk);
    extremes(desk);
    kinds_and_versions(desk);
    lengths(desk);
    tlvs(desk);
    padding(desk);
    stamps(desk);
    orders(desk);
    random(desk);
    damaged(desk);
}

fn captured(desk: &mut Desk) {
    desk.note("messages that linuxptp sent, whole and cut");
    for octets in frames::CAPTURED {
        desk.say(format!("read {octets}"));
        desk.say(format!("read {octets}0000"));
        desk.say(format!("read {}", &octets[..octets.len() - 2]));
    }
}

/// Each field at its smallest and at its largest value, the others as they are and all ones.
fn extremes(desk: &mut Desk) {
    desk.note("reading: each field at its ends");
    for kind in KINDS {
        for field in fields(kind).skip(1).filter(|field| field.name != "nanos") {
            for value in [*field.holds().start(), *field.holds().end()] {
                let message = plain(kind).with(field.name, value);
                desk.say(read_line(&message.octets()));
            }
        }
        let mut ones = vec![0xff; plain(kind).octets().len()];
        ones[0] = 0xf0 | kind as u8;
        ones[1] = 0xf2;
        ones[40..44].copy_from_slice(&999_999_999_u32.to_be_bytes());
        let length = ones.len();
        desk.say(read_line(&with_length(ones, length)));
    }
}

fn kinds_and_versions(desk: &mut Desk) {
    desk.note("reading: all kinds and all versions");
    let octets = plain(ANNOUNCE).octets();
    for kind in 0..16 {
        for version in 0..16 {
            let mut other = octets.clone();
            other[0] = (other[0] & 0xf0) | kind;
            other[1] = (other[1] & 0xf0) | version;
            desk.say(read_line(&other));
        }
    }
}

/// How many octets there are against what messageLength says.
fn lengths(desk: &mut Desk) {
    desk.note("reading: octets against messageLength");
    desk.say("read -");
    for kind in KINDS {
        let fixed = fixed_length(kind).expect("a kind of the table");
        let whole = plain(kind).with_suffix(&[0; 8]).octets();
        let counts = [1, 2, 33, 34, 35, fixed - 1, fixed, fixed + 1, fixed + 2, fixed + 4];
        let says = [0, 33, 34, fixed - 1, fixed, fixed + 1, fixed + 2, fixed + 4, 65_535];
        for count in counts {
            for length in says {
                let octets = with_length(whole.clone(), length);
                desk.say(read_line(&octets[..count]));
            }
        }
    }
}

fn tlvs(desk: &mut Desk) {
    desk.note("reading: TLVs whole and not, and then with padding behind");
    for (place, kind) in KINDS.iter().copied().enumerate() {
        // Every kind meets a third of them, a Sync and an Announce all.
        let all = if kind == SYNC || kind == ANNOUNCE { 1 } else { 3 };
        let cases = [suffixes::good(), suffixes::bad()].concat();
        for suffix in cases.iter().skip(place % all).step_by(all) {
            let message = plain(kind).with_suffix(suffix);
            desk.say(read_line(&message.octets()));
        }
        for suffix in cases.iter().step_by(4) {
            let mut octets = plain(kind).with_suffix(suffix).octets();
            octets.extend([0, 8, 0]);
            desk.say(read_line(&octets));
        }
    }
}

/// Octets behind messageLength are not looked at (rule 2.9).
fn padding(desk: &mut Desk) {
    desk.note("reading: padding is ignored");
    for kind in KINDS {
        for count in [1, 2, 3, 4, 16, 18, 300] {
            for octet in [0x00, 0xff] {
                let mut octets = plain(kind).octets();
                octets.extend(vec![octet; count]);
                desk.say(read_line(&octets));
            }
        }
    }
}

fn stamps(desk: &mut Desk) {
    desk.note("reading: seconds and nanoseconds at their ends");
    for kind in KINDS {
        for nanos in [0, 1, 999_999_999, 1_000_000_000, 1_000_000_001, 4_294_967_295] {
            for seconds in [0, 1, 4_294_967_295, 4_294_967_296, (1 << 48) - 1] {
                let message = plain(kind).with("nanos", nanos).with("seconds", seconds);
                desk.say(read_line(&message.octets()));
            }
        }
    }
}

/// Every set of things wrong at once: the first in order decides.
fn orders(desk: &mut Desk) {
    desk.note("reading: several refusals hold at once");
    for set in 0..64_u32 {
        let wrong = |bit: u32| set >> bit & 1 == 1;
        let nanos = if wrong(4) { 1_000_000_000 } else { 5 };
        let suffix: &[u8] = if wrong(5) { &[0, 8, 0, 1, 0, 0] } else { &[0, 8, 0, 2, 0, 0] };
        let message = plain(SYNC).with("nanos", nanos).with_suffix(suffix);
        let mut octets = message.octets();
        if wrong(0) {
            octets[1] = 0x11;
        }
        if wrong(1) {
            octets[0] = 0x0c;
        }
        if wrong(2) {
            octets = with_length(octets, 43);
        }
        if wrong(3) {
            octets.pop();
        }
        desk.say(read_line(&octets));
        desk.say(read_line(&octets[..33]));
    }
}

fn random(desk: &mut Desk) {
    desk.note("reading: random messages with random TLVs and padding");
    let mut dice = Dice::new(13);
    for _ in 0..30 {
        for kind in KINDS {
            let count = dice.below(4) as usize;
            let suffix = frames::tlvs(count, &mut dice);
            let mut octets = frames::random(kind, &mut dice).with_suffix(&suffix).octets();
            let padding = dice.below(4) as usize;
            octets.extend(dice.octets(padding));
            desk.say(read_line(&octets));
        }
    }
}

/// Good frames with an octet or two changed, cut or put in.
fn damaged(desk: &mut Desk) {
    desk.note("reading: damaged messages");
    let mut dice = Dice::new(17);
    for _ in 0..40 {
        for kind in KINDS {
            let suffix = frames::tlvs(1, &mut dice);
            let mut octets = frames::random(kind, &mut dice).with_suffix(&suffix).octets();
            for _ in 0..=dice.below(2) {
                let place = dice.below(octets.len() as u64) as usize;
                match dice.below(3) {
                    0 => octets[place] = dice.roll() as u8,
                    1 => octets.insert(place, dice.roll() as u8),
                    _ => drop(octets.remove(place)),
                }
            }
            desk.say(read_line(&octets));
        }
    }
}
