//! The numbers of refusal (rules 3.1 to 3.21).

/// Each name stands for its number: `Refusal::Short as u8` is 1.
#[derive(Clone, Copy, Debug, PartialEq, Eq)]
pub enum Refusal {
    Short = 1,
    Version = 2,
    Kind = 3,
    Length = 4,
    Field = 5,
    Suffix = 6,
    Room = 7,
    Settings = 8,
    Now = 9,
    Domain = 10,
    Own = 11,
    Alternate = 12,
    Steps = 13,
    Repeat = 14,
    Full = 15,
    NotMaster = 16,
    Unmatched = 17,
    Faulty = 18,
    Correction = 19,
    Tick = 20,
    NotReady = 21,
}

/// Refuses with `number` where `when` holds, so that a chain of refusals reads in its order.
pub fn refuse(when: bool, number: Refusal) -> Result<(), Refusal> {
    if when {
        Err(number)
    } else {
        Ok(())
    }
}

/// The names as docs/BENCH.md has them, in the order of their numbers.
pub const NAMES: [&str; 21] = [
    "SHORT",
    "VERSION",
    "KIND",
    "LENGTH",
    "FIELD",
    "SUFFIX",
    "ROOM",
    "SETTINGS",
    "NOW",
    "DOMAIN",
    "OWN",
    "ALTERNATE",
    "STEPS",
    "REPEAT",
    "FULL",
    "NOT_MASTER",
    "UNMATCHED",
    "FAULTY",
    "CORRECTION",
    "TICK",
    "NOT_READY",
];
