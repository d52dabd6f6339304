//! The five message kinds: the table of their fields, reading and writing.

use crate::refusal::{refuse, Refusal};
use crate::text::Range;

pub const SYNC: i128 = 0;
pub const DELAY_REQ: i128 = 1;
pub const FOLLOW_UP: i128 = 8;
pub const DELAY_RESP: i128 = 9;
pub const ANNOUNCE: i128 = 11;

/// Octets of the header.
pub const HEADER: usize = 34;

/// One field: a run of bits in the message, counted from the highest bit of octet 0.
pub struct Field {
    /// The bench's word for it.
    pub name: &'static str,
    first: usize,
    bits: usize,
    /// How many bits its word's type has; for most fields as many as in the message.
    word: usize,
    signed: bool,
    /// Written as 16 hex digits, not as a number.
    pub clock: bool,
}

const fn octets(name: &'static str, first: usize, count: usize) -> Field {
    Field { name, first: 8 * first, bits: 8 * count, word: 8 * count, signed: false, clock: false }
}

const fn signed(name: &'static str, first: usize, count: usize) -> Field {
    Field { signed: true, ..octets(name, first, count) }
}

const fn identity(name: &'static str, first: usize) -> Field {
    Field { clock: true, ..octets(name, first, 8) }
}

/// The high or the low four bits of an octet; as a word it is a u8.
const fn four(name: &'static str, first: usize, low: bool) -> Field {
    Field {
        name,
        first: 8 * first + if low { 4 } else { 0 },
        bits: 4,
        word: 8,
        signed: false,
        clock: false,
    }
}

/// Header and timestamp (rules 2.2 and 2.4), in the order of the bench's words.
static COMMON: [Field; 15] = [
    four("kind", 0, true),
    four("sdo", 0, false),
    four("minor", 1, false),
    octets("domain", 4, 1),
    octets("minorsdo", 5, 1),
    octets("flags", 6, 2),
    signed("correction", 8, 8),
    octets("specific", 16, 4),
    identity("clock", 20),
    octets("port", 28, 2),
    octets("sequence", 30, 2),
    octets("control", 32, 1),
    signed("interval", 33, 1),
    Field { word: 64, ..octets("seconds", 34, 6) },
    octets("nanos", 40, 4),
];

/// The two fields of the header that are derived and no field of a read message.
static VERSION: Field = four("version", 1, true);
static LENGTH: Field = octets("messageLength", 2, 2);

static RESPONSE: [Field; 2] = [identity("requesting clock", 44), octets("requesting port", 52, 2)];

static ANNOUNCED: [Field; 10] = [
    signed("utc", 44, 2),
    octets("reserved", 46, 1),
    octets("p1", 47, 1),
    octets("class", 48, 1),
    octets("accuracy", 49, 1),
    octets("variance", 50, 2),
    octets("p2", 52, 1),
    identity("grandmaster", 53),
    octets("steps", 61, 2),
    octets("source", 63, 1),
];

/// Fixed length of a kind and its fields after the timestamp (rules 2.5 to 2.7).
fn kind_row(kind: i128) -> Option<(usize, &'static [Field])> {
    match kind {
        SYNC | DELAY_REQ | FOLLOW_UP => Some((44, &[])),
        DELAY_RESP => Some((54, &RESPONSE)),
        ANNOUNCE => Some((64, &ANNOUNCED)),
        _ => None,
    }
}

/// The fixed length of a kind, none where it is not in the table.
pub fn fixed_length(kind: i128) -> Option<usize> {
    kind_row(kind).map(|(fixed, _)| fixed)
}

/// All fields of a kind of the table, in the order of the bench's words.
pub fn fields(kind: i128) -> impl Iterator<Item = &'static Field> {
    let body = kind_row(kind).map_or(&[][..], |(_, body)| body);
    COMMON.iter().chain(body)
}

fn range(signed: bool, bits: usize) -> Range {
    let all = 1_i128 << bits;
    if signed {
        -(all / 2)..=all / 2 - 1
    } else {
        0..=all - 1
    }
}

impl Field {
    /// What its bits in the message can hold.
    pub fn holds(&self) -> Range {
        range(self.signed, self.bits)
    }

    /// What its word in the bench's text can hold.
    pub fn word(&self) -> Range {
        range(self.signed, self.word)
    }

    fn cut(&self, octets: &[u8]) -> i128 {
        let bit = |place: usize| i128::from(octets[place / 8] >> (7 - place % 8) & 1);
        let places = self.first..self.first + self.bits;
        let value = places.fold(0, |value, place| 2 * value + bit(place));
        if value > *self.holds().end() {
            value - (1 << self.bits)
        } else {
            value
        }
    }

    fn lay(&self, value: i128, octets: &mut [u8]) {
        for place in 0..self.bits {
            let bit = (value >> (self.bits - 1 - place) & 1) as u8;
            let at = self.first + place;
            let mask = 0x80 >> (at % 8);
            octets[at / 8] = octets[at / 8] & !mask | (bit * mask);
        }
    }
}

/// A message: a value for each field of its kind, in the table's order, and its TLVs.
#[derive(Clone, Debug, PartialEq)]
pub struct Message {
    values: Vec<i128>,
    pub suffix: Vec<u8>,
}

impl Message {
    /// A message of a kind of the table with zeros everywhere else.
    pub fn blank(kind: i128) -> Message {
        let values = vec![0; fields(kind).count()];
        let message = Message { values, suffix: Vec::new() };
        message.with("kind", kind)
    }

    /// From the values of all fields, kind first.
    pub fn from_values(values: Vec<i128>, suffix: Vec<u8>) -> Message {
        Message { values, suffix }
    }

    pub fn kind(&self) -> i128 {
        self.values[0]
    }

    pub fn fixed(&self) -> usize {
        fixed_length(self.kind()).expect("a message's kind is in the table")
    }

    fn place(&self, name: &str) -> usize {
        fields(self.kind())
            .position(|field| field.name == name)
            .unwrap_or_else(|| panic!("kind {} has no field {name}", self.kind()))
    }

    pub fn get(&self, name: &str) -> i128 {
        self.values[self.place(name)]
    }

    pub fn with(mut self, name: &str, value: i128) -> Message {
        let place = self.place(name);
        self.values[place] = value;
        self
    }

    pub fn with_suffix(mut self, suffix: &[u8]) -> Message {
        self.suffix = suffix.to_vec();
        self
    }

    /// Each field with its value.
    pub fn each(&self) -> impl Iterator<Item = (&'static Field, i128)> + '_ {
        fields(self.kind()).zip(self.values.iter().copied())
    }

    /// The sender's port identity.
    pub fn sender(&self) -> Identity {
        Identity::new(self.get("clock"), self.get("port"))
    }

    /// The requesting port identity of a Delay_Resp.
    pub fn requesting(&self) -> Identity {
        Identity::new(self.get("requesting clock"), self.get("requesting port"))
    }

    /// The timestamp at 34-43, in nanoseconds.
    pub fn timestamp(&self) -> i128 {
        self.get("seconds") * 1_000_000_000 + self.get("nanos")
    }

    /// Its octets, laid out without asking whether it may be written.
    pub fn octets(&self) -> Vec<u8> {
        let mut octets = vec![0; self.fixed()];
        octets.extend(&self.suffix);
        for (field, value) in self.each() {
            field.lay(value, &mut octets);
        }
        VERSION.lay(2, &mut octets);
        LENGTH.lay(octets.len() as i128, &mut octets);
        octets
    }
}

/// A port identity as one number, 8 octets of clock and 2 of port: the smaller number is the
/// smaller identity.
#[derive(Clone, Copy, Debug, PartialEq, Eq, PartialOrd, Ord)]
pub struct Identity(i128);

impl Identity {
    pub fn new(clock: i128, port: i128) -> Identity {
        Identity(clock * 65_536 + port)
    }

    pub fn clock(self) -> i128 {
        self.0 / 65_536
    }

    pub fn port(self) -> i128 {
        self.0 % 65_536
    }
}

/// Reads a message, or refuses it by the order of rule 3.52.
pub fn read(octets: &[u8]) -> Result<Message, Refusal> {
    refuse(octets.len() < HEADER, Refusal::Short)?;
    refuse(VERSION.cut(octets) != 2, Refusal::Version)?;
    let kind = COMMON[0].cut(octets);
    let fixed = fixed_length(kind).ok_or(Refusal::Kind)?;
    let length = LENGTH.cut(octets) as usize;
    refuse(length < fixed, Refusal::Length)?;
    refuse(octets.len() < length, Refusal::Short)?;
    // Octets past messageLength are padding and ignored.
    let octets = &octets[..length];
    let values = fields(kind).map(|field| field.cut(octets)).collect();
    let message = Message::from_values(values, octets[fixed..].to_vec());
    refuse(message.get("nanos") >= 1_000_000_000, Refusal::Field)?;
    refuse(!whole_tlvs(&message.suffix), Refusal::Suffix)?;
    Ok(message)
}

/// Writes a message into the lent part, or refuses it by the order of rule 3.53.
pub fn write(message: &Message, lent: &mut [u8]) -> Result<(), Refusal> {
    let fits = |(field, value): (&Field, i128)| field.holds().contains(&value);
    let nanos = message.get("nanos") >= 1_000_000_000;
    refuse(nanos || !message.each().all(fits), Refusal::Field)?;
    refuse(!whole_tlvs(&message.suffix), Refusal::Suffix)?;
    let length = message.fixed() + message.suffix.len();
    refuse(length > 65_535, Refusal::Length)?;
    refuse(lent.len() < length, Refusal::Room)?;
    lent[..length].copy_from_slice(&message.octets());
    Ok(())
}

/// Whether octets are a row of whole TLVs (rule 2.8).
fn whole_tlvs(mut rest: &[u8]) -> bool {
    while let [_, _, high, low, behind @ ..] = rest {
        let length = usize::from(*high) * 256 + usize::from(*low);
        if length % 2 == 1 || length > behind.len() {
            return false;
        }
        rest = &behind[length..];
    }
    rest.is_empty()
}

#[cfg(test)]
mod tests {
    use super::*;

    #[test]
    fn the_fields_of_a_kind_and_the_two_derived_ones_fill_it_without_overlap() {
        for kind in [SYNC, DELAY_REQ, FOLLOW_UP, DELAY_RESP, ANNOUNCE] {
            let mut owners = vec![0; 8 * fixed_length(kind).unwrap()];
            for field in fields(kind).chain([&VERSION, &LENGTH]) {
                (field.first..field.first + field.bits).for_each(|bit| owners[bit] += 1);
            }
            assert!(owners.iter().all(|count| *count == 1), "kind {kind}");
        }
    }

    #[test]
    fn a_field_comes_back_as_it_was_laid() {
        for field in fields(ANNOUNCE).skip(1) {
            for value in [*field.holds().start(), *field.holds().end(), 1] {
                let mut octets = vec![0x55; 64];
                field.lay(value, &mut octets);
                assert_eq!(field.cut(&octets), value, "{}", field.name);
            }
        }
    }

    #[test]
    fn tlvs_are_whole_and_even() {
        let good: [&[u8]; 5] =
            [&[], &[0, 1, 0, 0], &[0, 1, 0, 2, 9, 9], &[0, 1, 0, 0, 0, 1, 0, 2, 9, 9], &[0xff; 0]];
        let bad: [&[u8]; 6] = [
            &[0],
            &[0, 1, 0],
            &[0, 1, 0, 1, 9],
            &[0, 1, 0, 2, 9],
            &[0, 1, 0, 0, 9, 9],
            &[0, 1, 0, 1, 9, 0],
        ];
        assert!(good.iter().all(|suffix| whole_tlvs(suffix)));
        assert!(!bad.iter().any(|suffix| whole_tlvs(suffix)));
    }

    #[test]
    fn a_refused_writing_touches_nothing() {
        let mut lent = vec![0xee; 43];
        assert_eq!(write(&Message::blank(SYNC), &mut lent), Err(Refusal::Room));
        assert_eq!(lent, vec![0xee; 43]);
    }

    #[test]
    fn identities_compare_by_clock_and_then_by_port() {
        assert!(Identity::new(1, 65_535) < Identity::new(2, 0));
        assert!(Identity::new(2, 0) < Identity::new(2, 1));
        assert_eq!(Identity::new(7, 9).clock(), 7);
        assert_eq!(Identity::new(7, 9).port(), 9);
    }
}
