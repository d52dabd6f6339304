//! The exchange and the delay filter: what has happened since the wipe, looked through backwards.

use crate::nearest;
use crate::refusal::{refuse, Refusal};

/// What belongs to a half that is still to be finished. Stamps and cut corrections are whole ns.
#[derive(Clone, Debug, PartialEq)]
enum Event {
    /// `t1` is known at once where the Sync is one-step.
    Sync {
        sequence: i128,
        t1: Option<i128>,
        t2: i128,
        correction: i128,
    },
    FollowUp {
        t1: i128,
        correction: i128,
    },
    Request {
        sequence: i128,
    },
    Sent {
        t3: i128,
    },
}

/// How a measurement finished.
#[derive(Clone, Debug, PartialEq)]
pub enum Finished {
    Neg,
    Long,
    Huge,
    Path,
    /// Accepted at the now `at`.
    Accepted {
        delay: i128,
        used: i128,
        offset: i128,
        at: i128,
    },
}

#[derive(Clone, Debug, Default, PartialEq)]
pub struct Exchange {
    /// Since the last finished measurement, which emptied both halves (rule 7.7).
    events: Vec<Event>,
    /// Every t2 and t3 taken since the wipe.
    stamps: Vec<i128>,
    /// Every finished measurement since the wipe.
    finished: Vec<Finished>,
}

/// A correction in whole ns, rounded down (rule 7.10).
pub fn cut(correction: i128) -> i128 {
    nearest::floor(correction, 65_536)
}

impl Exchange {
    /// BACK: the local stamp lies below the one taken last (rule 7.9).
    pub fn is_back(&self, stamp: i128) -> bool {
        self.stamps.last().is_some_and(|last| stamp < *last)
    }

    /// A Sync takes the place of the one before (rule 7.2). `t1` is given where it is one-step.
    pub fn sync(&mut self, sequence: i128, t1: Option<i128>, t2: i128, correction: i128) {
        self.stamps.push(t2);
        self.events.push(Event::Sync { sequence, t1, t2, correction: cut(correction) });
    }

    /// t1 for the Sync that awaits it (rule 7.4).
    pub fn follow_up(&mut self, sequence: i128, t1: i128, correction: i128) -> Result<(), Refusal> {
        let waiting = match self.sync_half() {
            [Event::Sync { sequence, t1: None, .. }, behind @ ..] => {
                let paired = behind.iter().any(|event| matches!(event, Event::FollowUp { .. }));
                (!paired).then_some(*sequence)
            }
            _ => None,
        };
        refuse(waiting != Some(sequence), Refusal::Unmatched)?;
        let correction = cut(correction);
        self.events.push(Event::FollowUp { t1, correction });
        Ok(())
    }

    /// A request, pending in place of any before (rule 7.5).
    pub fn request(&mut self, sequence: i128) {
        self.events.push(Event::Request { sequence });
    }

    /// Refuses a t3 that has no request to belong to, or comes a second time (rule 7.6).
    pub fn check_sent(&self, sequence: i128) -> Result<(), Refusal> {
        let waiting = self.pending() == Some(sequence) && self.t3().is_none();
        refuse(!waiting, Refusal::Unmatched)
    }

    pub fn sent(&mut self, t3: i128) {
        self.stamps.push(t3);
        self.events.push(Event::Sent { t3 });
    }

    /// The held Sync and all that came after it; nothing where none is held.
    fn sync_half(&self) -> &[Event] {
        let is_sync = |event: &Event| matches!(event, Event::Sync { .. });
        match self.events.iter().rposition(is_sync) {
            Some(place) => &self.events[place..],
            None => &[],
        }
    }

    /// Forward, where t1 and t2 are known (rule 7.11).
    fn forward(&self) -> Option<i128> {
        let (first, behind) = self.sync_half().split_first()?;
        let Event::Sync { t1, t2, correction, .. } = first else {
            return None;
        };
        if let Some(t1) = t1 {
            return Some(t2 - t1 - correction);
        }
        let whole = |event: &Event| match event {
            Event::FollowUp { t1, correction: more } => Some(t2 - t1 - correction - more),
            _ => None,
        };
        behind.iter().find_map(whole)
    }

    /// The sequenceId of the pending request.
    fn pending(&self) -> Option<i128> {
        self.events.iter().rev().find_map(|event| match event {
            Event::Request { sequence } => Some(*sequence),
            _ => None,
        })
    }

    /// The t3 of the pending request: given after it, no newer request between.
    fn t3(&self) -> Option<i128> {
        let since = self.events.iter().rev();
        since.take_while(|event| !matches!(event, Event::Request { .. })).find_map(|event| {
            match event {
                Event::Sent { t3 } => Some(*t3),
                _ => None,
            }
        })
    }

    /// A Delay_Resp finishes the measurement if nothing is missing (rule 7.7); who asked is looked
    /// at before.
    pub fn response(
        &mut self,
        sequence: i128,
        t4: i128,
        correction: i128,
        now: i128,
    ) -> Result<Finished, Refusal> {
        refuse(self.pending() != Some(sequence), Refusal::Unmatched)?;
        let t3 = self.t3().ok_or(Refusal::Unmatched)?;
        let forward = self.forward().ok_or(Refusal::Unmatched)?;
        let back = t4 - t3 - cut(correction);
        let finished = self.judge(forward, back, now);
        self.events.clear();
        self.finished.push(finished.clone());
        Ok(finished)
    }

    /// The four verdicts one after the other (rule 7.18), else accepted (rule 7.21).
    fn judge(&self, forward: i128, back: i128, now: i128) -> Finished {
        let sum = forward + back;
        if sum < 0 {
            return Finished::Neg;
        }
        if sum > 19_999_998 {
            return Finished::Long;
        }
        let delay = nearest::whole(sum, 2);
        if (forward - delay).abs() >= 1_000_000_000 {
            return Finished::Huge;
        }
        let last = self.accepted().next();
        if last.is_some_and(|(last, _)| (delay - last).abs() >= 1_000_000) {
            return Finished::Path;
        }
        let used = self.filter(delay);
        Finished::Accepted { delay, used, offset: forward - used, at: now }
    }

    /// Delay and delay used of the accepted measurements since the wipe, newest first.
    fn accepted(&self) -> impl Iterator<Item = (i128, i128)> + '_ {
        self.finished.iter().rev().filter_map(|one| match one {
            Finished::Accepted { delay, used, .. } => Some((*delay, *used)),
            _ => None,
        })
    }

    /// The delay used: the measured one, or the median where it strays (rule 7.21).
    fn filter(&self, delay: i128) -> i128 {
        match self.accepted().next() {
            Some((_, used)) if (delay - used).abs() > 1_000 => {
                let before = self.accepted().take(4).map(|(delay, _)| delay);
                median(before.chain([delay]).collect())
            }
            _ => delay,
        }
    }

    /// How many of the newest finished measurements are of this one kind.
    pub fn row(&self, kind: &Finished) -> usize {
        let newest = self.finished.iter().rev();
        newest.take_while(|one| *one == kind).count()
    }

    /// The now of the last accepted measurement since the wipe.
    pub fn accepted_at(&self) -> Option<i128> {
        self.finished.iter().rev().find_map(|one| match one {
            Finished::Accepted { at, .. } => Some(*at),
            _ => None,
        })
    }
}

/// The middle one by size, the lower of two (rule 7.22).
fn median(mut delays: Vec<i128>) -> i128 {
    delays.sort_unstable();
    delays[(delays.len() - 1) / 2]
}

#[cfg(test)]
mod tests {
    use super::*;

    #[test]
    fn the_median_is_the_lower_middle() {
        assert_eq!(median(vec![7]), 7);
        assert_eq!(median(vec![9, 2]), 2);
        assert_eq!(median(vec![9, 2, 5]), 5);
        assert_eq!(median(vec![9, 2, 5, 7]), 5);
        assert_eq!(median(vec![9, 2, 5, 7, 1]), 5);
    }

    #[test]
    fn the_median_of_five_has_two_on_each_side_in_every_order() {
        for number in 0..3_125_u32 {
            let five: Vec<i128> =
                (0..5).map(|place| i128::from(number / 5_u32.pow(place) % 5)).collect();
            let middle = median(five.clone());
            assert!(five.iter().filter(|one| **one < middle).count() <= 2);
            assert!(five.iter().filter(|one| **one > middle).count() <= 2);
        }
    }

    fn accepted(delay: i128, used: i128) -> Finished {
        Finished::Accepted { delay, used, offset: 0, at: 0 }
    }

    #[test]
    fn the_filter_looks_at_the_delay_last_used_and_the_path_at_the_delay_last_accepted() {
        let mut exchange = Exchange::default();
        assert_eq!(exchange.filter(5_000), 5_000);
        exchange.finished = vec![accepted(1_000_000, 1_000_000), accepted(1_900_000, 1_000_000)];
        // 1,001,000 is 1,000 from the delay last used; 1,001,001 is over, and the median of
        // 1,000,000, 1,001,001 and 1,900,000 happens to be the delay itself.
        assert_eq!(exchange.filter(1_001_000), 1_001_000);
        assert_eq!(exchange.filter(1_001_001), 1_001_001);
        assert_eq!(exchange.filter(998_999), 1_000_000);
        // 900,000 is 1,000,000 from the last accepted 1,900,000, though 100,000 from the used.
        assert_eq!(exchange.judge(900_000, 900_000, 0), Finished::Path);
        assert!(matches!(exchange.judge(900_001, 900_001, 0), Finished::Accepted { .. }));
    }

    #[test]
    fn only_five_delays_are_looked_at() {
        let exchange = Exchange {
            finished: [1, 1, 1, 1, 100, 200, 300, 400].map(|delay| accepted(delay, 1)).to_vec(),
            ..Exchange::default()
        };
        assert_eq!(exchange.filter(5_000), 300);
    }

    #[test]
    fn a_row_is_broken_by_any_other_finish() {
        let finished = vec![Finished::Huge, Finished::Huge];
        let exchange = Exchange { finished, ..Exchange::default() };
        assert_eq!(exchange.row(&Finished::Huge), 2);
        for other in [Finished::Neg, Finished::Long, Finished::Path, accepted(1, 1)] {
            let mut broken = exchange.clone();
            broken.finished.push(other);
            broken.finished.push(Finished::Huge);
            assert_eq!(broken.row(&Finished::Huge), 1);
        }
    }
}
