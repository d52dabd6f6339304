//! The settings of a unit and their ranges.

use crate::message::Identity;
use crate::refusal::{refuse, Refusal};

#[derive(Clone, Debug, PartialEq)]
pub struct Settings {
    pub domain: i128,
    pub clock: i128,
    pub port: i128,
    pub announce: i128,
    pub sync: i128,
    pub kp: i128,
    pub ki: i128,
    pub limit: i128,
    pub window: i128,
    pub minimum: i128,
    pub holdoff: i128,
    pub tolerance: i128,
    pub spike: i128,
    pub jump: i128,
}

impl Settings {
    /// Refusal 8, by the ranges of rules 4.1 to 4.13.
    pub fn check(&self) -> Result<(), Refusal> {
        let ranges = [
            (self.announce, 0..=4),
            (self.sync, 0..=7),
            (self.kp, 100..=1_000),
            (self.ki, 10..=500),
            (self.limit, 1..=100_000),
            (self.window, 2..=128),
            (self.minimum, 2..=self.window),
            (self.holdoff, 0..=10),
            (self.tolerance, 0..=100_000_000),
            (self.spike, 1..=999_999_998),
            (self.jump, self.spike + 1..=999_999_999),
        ];
        let inside = ranges.iter().all(|(value, range)| range.contains(value));
        refuse(!inside, Refusal::Settings)
    }

    /// The own port identity.
    pub fn own(&self) -> Identity {
        Identity::new(self.clock, self.port)
    }

    /// The announce interval, 2^a seconds, in milliseconds.
    pub fn interval(&self) -> i128 {
        1_000 << self.announce
    }
}
