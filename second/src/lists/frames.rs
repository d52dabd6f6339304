//! Messages for lists: made ones, random ones and some that linuxptp sent.

use crate::dice::Dice;
use crate::message::{fields, Message, ANNOUNCE, DELAY_REQ, DELAY_RESP, FOLLOW_UP, SYNC};
use crate::text::hex;

pub const KINDS: [i128; 5] = [SYNC, DELAY_REQ, FOLLOW_UP, DELAY_RESP, ANNOUNCE];

/// Messages as linuxptp sent them, behind the Ethernet header; the last ones are of kinds that
/// are not in the table (Pdelay_Req, Signaling, Management).
pub const CAPTURED: [&str; 13] = [
    "0b02004000000000000000000000000000000000020000fffe0000010001000105000000000000000000000000250064f8feffff80020000fffe0000010000a0",
    "0b02004c00000000000000000000000000000000020000fffe0000020001000005000000000000000000000000250080f8feffff80020000fffe0000020000a000080008020000fffe000002",
    "0b02004018000000000000000000000000000000020000fffe000002000100000500000000000000000000000025006ef8feffff80020000fffe0000020000a0",
    "0b02004000000400000000000000000000000000020000fffe0000010001000005000000000000000000000000250064f8feffff80020000fffe0000010000a0",
    "0002002c00000200000000000000000000000000020000fffe0000010001000100ff00000000000000000000",
    "0002002c18000200000000000000000000000000020000fffe0000020001000000ff00000000000000000000",
    "0802002c00000000000000000000000000000000020000fffe0000010001000102ff00006af91fcd2502a868",
    "0802002c00000000000000000000000000000000020000fffe0001010001000102ff00006af9201f2949f5c2",
    "0102002c00000000000000000000000000000000020000fffe00000300010001017f00000000000000000000",
    "0902003600000000000000000000000000000000020000fffe00000100010001030000006af91fd02ede7562020000fffe0000030001",
    "0202003600000000000000000000000000000000020000fffe00010200010000057f0000000000000000000000000000000000000000",
    "0c02003600000400000000000000000000000000020000fffe00000300010000057fffffffffffffffffffff00040006b0000000000a",
    "0d02004a00000000000000000000000000000000020000fffe00020200010000047fffffffffffffffffffff000000000001001620000000000000000000000000000000000000000000",
];

/// A message of a kind with a different value in every field.
pub fn plain(kind: i128) -> Message {
    let mut message = Message::blank(kind);
    for (place, field) in fields(kind).enumerate().skip(1) {
        let value = (0x0123_4567_89ab_cdef_i128 >> place) & field.holds().end() & 0x7fff_ffff;
        message = message.with(field.name, value);
    }
    message.with("nanos", 123_456_789)
}

/// A message of a kind with random values, extremes among them.
pub fn random(kind: i128, dice: &mut Dice) -> Message {
    let mut message = Message::blank(kind);
    for field in fields(kind).skip(1) {
        let range = field.holds();
        let value = match dice.below(8) {
            0 => *range.start(),
            1 => *range.end(),
            _ => dice.between(*range.start(), *range.end()),
        };
        message = message.with(field.name, value);
    }
    let nanos = dice.between(0, 999_999_999);
    message.with("nanos", nanos)
}

/// Whole TLVs of even length.
pub fn tlvs(count: usize, dice: &mut Dice) -> Vec<u8> {
    let mut suffix = Vec::new();
    for _ in 0..count {
        let length = 2 * dice.below(8) as usize;
        let kind = dice.roll() as u16;
        // PATH_TRACE, ORGANIZATION_EXTENSION, or any.
        suffix.extend(dice.pick(&[0x0008, 0x0003, kind]).to_be_bytes());
        suffix.extend([0, length as u8]);
        suffix.extend(dice.octets(length));
    }
    suffix
}

/// Octets of a message with another messageLength.
pub fn with_length(mut octets: Vec<u8>, length: usize) -> Vec<u8> {
    octets[2] = (length / 256) as u8;
    octets[3] = (length % 256) as u8;
    octets
}

pub fn read_line(octets: &[u8]) -> String {
    format!("read {}", hex(octets))
}

/// The `write` line of a message.
pub fn write_line(message: &Message, room: usize) -> String {
    let mut words = vec![String::from("write")];
    for (field, value) in message.each() {
        words.push(if field.clock { format!("{value:016x}") } else { value.to_string() });
    }
    words.push(hex(&message.suffix));
    words.push(room.to_string());
    words.join(" ")
}
