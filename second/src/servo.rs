//! The PI servo over the offsets since the wipe, in units of 1/128,000 ppb.

use crate::nearest;
use crate::settings::Settings;

const UNITS: i128 = 128_000;

#[derive(Clone, Debug, Default, PartialEq)]
pub struct Servo {
    /// Every offset since the wipe, or since the ten were last emptied.
    offsets: Vec<i128>,
    integral: i128,
    /// How often the set gains have been halved since the wipe.
    halvings: u32,
    /// In whole ppb.
    pub output: i128,
}

impl Servo {
    /// Takes an offset and sets the output.
    pub fn take(&mut self, offset: i128, settings: &Settings) {
        let limit = settings.limit * UNITS;
        let within = |value: i128| value.max(-limit).min(limit);
        let ki = self.gain(settings.ki);
        let kp = self.gain(settings.kp);
        let step = 1 << (7 - settings.sync);
        self.integral = within(self.integral + ki * offset * step);
        let output = within(kp * offset * 128 + self.integral);
        self.output = nearest::whole(output, UNITS);
        self.offsets.push(offset);
        // With the output as it is: rule 8.7.
        if self.swings() {
            self.halvings += 1;
            self.integral = 0;
            self.offsets.clear();
        }
    }

    /// A set gain after the halvings, each rounded down and never to less than 1.
    fn gain(&self, set: i128) -> i128 {
        (0..self.halvings).fold(set, |gain, _| (gain / 2).max(1))
    }

    /// The last ten offsets, where there are ten.
    fn ten(&self) -> Option<&[i128]> {
        let first = self.offsets.len().checked_sub(10)?;
        Some(&self.offsets[first..])
    }

    /// Whether the ten swing (rule 8.6).
    fn swings(&self) -> bool {
        let opposite = |two: &&[i128]| two[0].signum() * two[1].signum() == -1;
        self.ten().is_some_and(|ten| ten.windows(2).filter(opposite).count() >= 6)
    }

    /// TRACKING (rule 6.3).
    pub fn tracks(&self) -> bool {
        self.ten().is_some_and(|ten| {
            let sum: i128 = ten.iter().sum();
            let squares: i128 = ten.iter().map(|offset| offset * offset).sum();
            let near = ten.iter().all(|offset| offset.abs() <= 99);
            near && 10 * squares - sum * sum < 5_000
        })
    }
}

#[cfg(test)]
mod tests {
    use super::*;
    use crate::lists::settings::bench;

    fn fed(offsets: &[i128]) -> Servo {
        let mut servo = Servo::default();
        offsets.iter().for_each(|offset| servo.take(*offset, &bench()));
        servo
    }

    #[test]
    fn zero_has_no_sign() {
        assert_eq!(fed(&[1, -1, 1, -1, 1, -1, 1, 1, 1, 1]).halvings, 1);
        assert_eq!(fed(&[1, -1, 1, -1, 1, -1, -1, -1, -1, -1]).halvings, 0);
        assert_eq!(fed(&[1, 0, -1, 0, 1, 0, -1, 0, 1, -1]).halvings, 0);
    }

    #[test]
    fn the_ten_are_emptied_and_the_output_of_the_tenth_is_made_with_the_old_gains() {
        let mut servo =
            fed(&[1_000, -1_000, 1_000, -1_000, 1_000, -1_000, 1_000, -1_000, 1_000, -1_000]);
        // I is 0 after the tenth, so the output is Kp alone: -700.
        assert_eq!((servo.output, servo.integral, servo.offsets.len()), (-700, 0, 0));
        servo.take(1_000, &bench());
        // Kp 350 and Ki 150: 350 + 150.
        assert_eq!(servo.output, 500);
    }

    #[test]
    fn gains_are_never_halved_below_one() {
        let servo = Servo { halvings: 40, ..Servo::default() };
        assert_eq!((servo.gain(1_000), servo.gain(10)), (1, 1));
        let servo = Servo { halvings: 3, ..Servo::default() };
        assert_eq!(servo.gain(703), 87);
    }

    #[test]
    fn tracking_has_two_edges() {
        // Nine zeros and a: 10 a² - a² = 9 a², under 5,000 up to 23.
        assert!(fed(&[0, 0, 0, 0, 0, 0, 0, 0, 0, 23]).tracks());
        assert!(!fed(&[0, 0, 0, 0, 0, 0, 0, 0, 0, 24]).tracks());
        assert!(fed(&[99; 10]).tracks());
        assert!(!fed(&[100; 10]).tracks());
        assert!(!fed(&[-100; 10]).tracks());
        assert!(!fed(&[0; 9]).tracks());
        assert!(fed(&[5_000, 0, 0, 0, 0, 0, 0, 0, 0, 0, 0]).tracks());
    }
}
