//! The list `wire`: reading, writing, bad lines and unit calls without a unit.

use super::desk::Desk;
use super::frames::{plain, read_line, with_length, write_line};
use super::{bad_lines, reading, writing};
use crate::message::{ANNOUNCE, SYNC};
use crate::text::LONGEST;

pub fn list() -> Vec<u8> {
    let mut desk = Desk::default();
    bad_lines::write(&mut desk);
    reading::write(&mut desk);
    writing::write(&mut desk);
    long_reads(&mut desk);
    long_writes(&mut desk);
    longest_lines(&mut desk);
    desk.text()
}

/// One TLV that has `length` octets in all.
fn one_tlv(length: usize) -> Vec<u8> {
    let value = length - 4;
    let mut octets = vec![0x20, 0x04, (value / 256) as u8, (value % 256) as u8];
    octets.resize(length, 0x5a);
    octets
}

/// All fixed lengths are even, so the longest message that can be read has 65,534 octets.
fn long_reads(desk: &mut Desk) {
    desk.note("reading: the longest messages");
    let octets = plain(SYNC).with_suffix(&one_tlv(65_490)).octets();
    desk.say(read_line(&octets));
    let mut odd = with_length(octets, 65_535);
    odd.push(0);
    desk.say(read_line(&odd));
}

fn long_writes(desk: &mut Desk) {
    desk.note("writing: the longest messages, and lengths over 65,535");
    let longest = plain(SYNC).with_suffix(&one_tlv(65_490));
    desk.say(write_line(&longest, 65_534));
    desk.say(write_line(&longest, 65_533));
    desk.say(write_line(&plain(ANNOUNCE), 70_000));
    let over = plain(SYNC).with_suffix(&one_tlv(65_492));
    desk.say(write_line(&over, 70_000));
    desk.say(write_line(&over.clone().with("nanos", 1_000_000_000), 0));
    let odd = plain(ANNOUNCE).with_suffix(&[one_tlv(65_472), vec![0]].concat());
    desk.say(write_line(&odd, 44));
}

/// A line of the longest length, and one octet longer.
fn longest_lines(desk: &mut Desk) {
    desk.note("the longest line, and one longer");
    let suffix = [one_tlv(65_538), one_tlv(65_000)].concat();
    let line = write_line(&plain(SYNC).with_suffix(&suffix), 0);
    let zeros = "0".repeat(LONGEST - line.len());
    let longest = line.replacen("write ", &format!("write {zeros}"), 1);
    desk.say(&longest);
    desk.say(longest.replacen("write ", "write 0", 1));
    desk.say(format!("#{}", "0".repeat(1_000)));
}
