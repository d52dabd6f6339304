//! The lists of calls that can be made, by name.

pub mod bad_lines;
pub mod card;
pub mod desk;
pub mod exchange;
pub mod frames;
pub mod hall;
pub mod hour;
pub mod masters;
pub mod partners;
pub mod random;
pub mod reading;
pub mod servo;
pub mod settings;
pub mod stamps;
pub mod suffixes;
pub mod verdicts;
pub mod watch;
pub mod wire;
pub mod writing;

/// The list of this name, none where there is no such list.
pub fn named(name: &str) -> Option<Vec<u8>> {
    match name {
        "wire" => Some(wire::list()),
        "masters" => Some(masters::list()),
        "exchange" => Some(exchange::list()),
        "watch" => Some(watch::list()),
        "card" => Some(card::list()),
        "sequence" => Some(card::sequence()),
        "hour" => Some(hour::list(3_600)),
        "whole" => Some(whole()),
        "stored" => Some(stored()),
        _ => None,
    }
}

/// What crates/bench/stdin holds.
pub fn stored() -> Vec<u8> {
    whole()
}

/// Every list one after the other, and a few random ones.
pub fn whole() -> Vec<u8> {
    let mut all =
        vec![wire::list(), masters::list(), exchange::list(), watch::list(), card::list()];
    all.extend((1..=4).map(|seed| random::list(seed, 1_000)));
    all.concat()
}
