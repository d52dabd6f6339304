//! The drift watch: all samples since the wipe, the window and the line.

use crate::nearest;
use crate::refusal::{refuse, Refusal};
use crate::settings::Settings;

const SECOND: i128 = 1_000_000_000;

#[derive(Clone, Debug, PartialEq)]
struct Sample {
    reference: i128,
    clock: i128,
    y: i128,
    valid: bool,
}

/// What a pulse comes to: taken, or the cause of a wipe.
#[derive(Clone, Copy, Debug, PartialEq)]
pub enum Pulse {
    Valid,
    Invalid,
    Back,
    Range,
    Jump,
}

/// A drift line: two numerators over one denominator, the count and the f64's bits.
#[derive(Clone, Debug, PartialEq)]
pub struct Line {
    pub level: i128,
    pub slope: i128,
    pub over: i128,
    pub n: i128,
    pub ppm: u64,
}

#[derive(Clone, Debug, Default, PartialEq)]
pub struct Watch {
    /// Every sample taken since the wipe.
    samples: Vec<Sample>,
}

impl Watch {
    /// Judges a pulse and takes it where it doesn't wipe; the wipe itself is the unit's.
    pub fn pulse(&mut self, reference: i128, clock: i128, settings: &Settings) -> Pulse {
        let y = match self.samples.first() {
            Some(first) => (clock - reference) - (first.clock - first.reference),
            None => 0,
        };
        let pulse = self.judge(reference, y, settings);
        if matches!(pulse, Pulse::Valid | Pulse::Invalid) {
            self.samples.push(Sample { reference, clock, y, valid: pulse == Pulse::Valid });
        }
        pulse
    }

    /// The checks against the sample before, in the order of rule 9.3.
    fn judge(&self, reference: i128, y: i128, settings: &Settings) -> Pulse {
        let Some(previous) = self.samples.last() else {
            return Pulse::Valid;
        };
        let step = (y - previous.y).abs();
        let interval = reference - previous.reference;
        if interval <= 0 {
            Pulse::Back
        } else if y.abs() >= SECOND {
            Pulse::Range
        } else if step > settings.jump {
            Pulse::Jump
        } else if step > settings.spike || (interval - SECOND).abs() > settings.tolerance {
            Pulse::Invalid
        } else {
            Pulse::Valid
        }
    }

    /// Position and y of the valid samples in the window; invalid ones keep their places (rules
    /// 9.11 and 9.12).
    fn valid(&self, window: i128) -> Vec<(i128, i128)> {
        let first = self.samples.len().saturating_sub(window as usize);
        let placed = (0..).zip(&self.samples[first..]);
        placed.filter(|(_, sample)| sample.valid).map(|(x, sample)| (x, sample.y)).collect()
    }

    /// The line, where it is due (rule 9.13).
    pub fn line(&self, settings: &Settings) -> Result<Line, Refusal> {
        let points = self.valid(settings.window);
        let taken = self.samples.len() as i128;
        let short = taken < settings.holdoff || (points.len() as i128) < settings.minimum;
        refuse(short, Refusal::NotReady)?;
        Ok(fit(&points))
    }
}

/// Level and slope solve `n level + sx slope = sy` and `sx level + sxx slope = sxy`: each is one
/// determinant over another.
fn fit(points: &[(i128, i128)]) -> Line {
    let sum = |term: fn(i128, i128) -> i128| points.iter().map(|(x, y)| term(*x, *y)).sum();
    let n: i128 = sum(|_, _| 1);
    let sx: i128 = sum(|x, _| x);
    let sy: i128 = sum(|_, y| y);
    let sxx: i128 = sum(|x, _| x * x);
    let sxy: i128 = sum(|x, y| x * y);
    let determinant = |a: i128, b: i128, c: i128, d: i128| a * d - b * c;
    let over = determinant(n, sx, sx, sxx);
    let slope = determinant(n, sy, sx, sxy);
    Line {
        level: determinant(sy, sx, sxy, sxx),
        slope,
        over,
        n,
        // ns in a second are ppb, so ppm is a thousandth of the slope.
        ppm: nearest::double(slope, 1_000 * over),
    }
}

/// Refusal 20 (rule 3.20).
pub fn check_stamps(reference: i128, clock: i128) -> Result<(), Refusal> {
    let range = 0..1_i128 << 62;
    let inside = range.contains(&reference) && range.contains(&clock);
    refuse(!inside, Refusal::Tick)
}

#[cfg(test)]
mod tests {
    use super::*;
    use crate::dice::Dice;

    /// The same three numbers as sums over pairs of points (Binet and Cauchy).
    fn by_pairs(points: &[(i128, i128)]) -> (i128, i128, i128) {
        let mut sums = (0, 0, 0);
        for (place, (xi, yi)) in points.iter().enumerate() {
            for (xj, yj) in &points[place + 1..] {
                sums.0 += (xj - xi) * (xj * yi - xi * yj);
                sums.1 += (xj - xi) * (yj - yi);
                sums.2 += (xj - xi) * (xj - xi);
            }
        }
        sums
    }

    #[test]
    fn the_line_agrees_with_the_sums_over_pairs() {
        let mut dice = Dice::new(4);
        for round in 0..500 {
            // Every place of the window, or some of them left out.
            let mut points: Vec<(i128, i128)> =
                (0..128).map(|x| (x, dice.between(-999_999_999, 999_999_999))).collect();
            points.retain(|_| round % 4 == 0 || !dice.once_in(round % 4 + 1));
            let line = fit(&points);
            assert_eq!((line.level, line.slope, line.over), by_pairs(&points));
        }
    }

    /// y = 5 + 3 x exactly: level 5 and slope 3 times the denominator.
    #[test]
    fn a_straight_row_gives_its_own_line() {
        let points: Vec<(i128, i128)> = [0, 1, 4, 9].map(|x| (x, 5 + 3 * x)).to_vec();
        let line = fit(&points);
        assert_eq!((line.level, line.slope), (5 * line.over, 3 * line.over));
        // n = 4, sum x = 14, sum x² = 98: 4·98 - 14² = 196.
        assert_eq!((line.n, line.over), (4, 196));
    }

    /// P12's points: numbering only the valid ones would give 75.
    #[test]
    fn invalid_samples_keep_their_places() {
        assert_eq!(fit(&[(0, 0), (1, 50), (3, 150)]).slope, 700);
        assert_eq!(fit(&[(0, 0), (1, 50), (3, 150)]).over, 14);
        let numbered = fit(&[(0, 0), (1, 50), (2, 150)]);
        assert_eq!(numbered.slope, 75 * numbered.over);
    }

    #[test]
    fn stamps_end_at_two_to_the_62() {
        let last = (1_i128 << 62) - 1;
        assert_eq!(check_stamps(0, last), Ok(()));
        assert_eq!(check_stamps(last, 0), Ok(()));
        for (reference, clock) in [(-1, 0), (0, -1), (last + 1, 0), (0, last + 1)] {
            assert_eq!(check_stamps(reference, clock), Err(Refusal::Tick));
        }
    }
}
