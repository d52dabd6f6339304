//! The unit: every call, the one wipe and what is shown.

use crate::answer::{Answer, Shown};
use crate::call::Stamp;
use crate::exchange::{Exchange, Finished};
use crate::masters::Table;
use crate::message::{self, Identity, Message, ANNOUNCE, DELAY_REQ, FOLLOW_UP, SYNC};
use crate::refusal::{refuse, Refusal};
use crate::servo::Servo;
use crate::settings::Settings;
use crate::watch::{self, Pulse, Watch};

/// Octets of Ethernet header before a message.
const ETHERNET: usize = 14;

/// The two flags that are looked at, both in octet 6, the upper one of two (rule 2.3).
const ALTERNATE: i128 = 0x0100;
const TWO_STEP: i128 = 0x0200;

type Answered = Result<Answer, Refusal>;

/// All that a wipe empties.
#[derive(Clone, Debug, Default, PartialEq)]
struct SinceWipe {
    exchange: Exchange,
    servo: Servo,
    watch: Watch,
}

#[derive(Clone, Debug, PartialEq)]
pub struct Unit {
    settings: Settings,
    table: Table,
    chosen: Option<Identity>,
    now: i128,
    faulty: bool,
    /// How many requests were written: the next one's sequenceId is the remainder by 65,536.
    requests: i128,
    /// How many wipes there were: shown as the remainder by 2^32.
    wipes: i128,
    since: SinceWipe,
}

fn flag(message: &Message, bit: i128) -> bool {
    message.get("flags") & bit != 0
}

/// Refusal 5 of a t2 or t3; else the stamp in nanoseconds.
fn local(stamp: Stamp) -> Result<i128, Refusal> {
    let bad = stamp.nanos >= 1_000_000_000 || stamp.seconds >= 1 << 48;
    refuse(bad, Refusal::Field)?;
    Ok(stamp.seconds * 1_000_000_000 + stamp.nanos)
}

impl Unit {
    /// Like a wiped one, with nothing in its table and every count at 0 (rule 10.12).
    pub fn fresh(settings: Settings) -> Result<Unit, Refusal> {
        settings.check()?;
        Ok(Unit {
            table: Table::empty(settings.interval()),
            settings,
            chosen: None,
            now: 0,
            faulty: false,
            requests: 0,
            wipes: 0,
            since: SinceWipe::default(),
        })
    }

    fn wipe(&mut self) {
        self.since = SinceWipe::default();
        self.wipes += 1;
    }

    /// A message, read and then handed over with the stamp of its arrival. `lent` is how many
    /// records the lent table has.
    pub fn receive(&mut self, lent: usize, now: i128, stamp: Stamp, octets: &[u8]) -> Answered {
        let message = message::read(octets)?;
        let kind = message.kind();
        refuse(kind == DELAY_REQ, Refusal::Kind)?;
        refuse(lent != 5, Refusal::Settings)?;
        match kind {
            ANNOUNCE => self.announce(now, message),
            SYNC => self.sync(now, stamp, &message),
            FOLLOW_UP => self.follow_up(now, &message),
            _ => self.response(now, &message),
        }
    }

    /// An Announce: 9 to 15, one after the other (rule 3.56).
    fn announce(&mut self, now: i128, message: Message) -> Answered {
        refuse(now < self.now, Refusal::Now)?;
        refuse(message.get("domain") != self.settings.domain, Refusal::Domain)?;
        refuse(message.get("clock") == self.settings.clock, Refusal::Own)?;
        refuse(flag(&message, ALTERNATE), Refusal::Alternate)?;
        refuse(message.get("steps") >= 255, Refusal::Steps)?;
        self.table.admit(message, now)?;
        Ok(self.choose(now))
    }

    /// A bare time call.
    pub fn time(&mut self, lent: usize, now: i128) -> Answered {
        refuse(lent != 5, Refusal::Settings)?;
        refuse(now < self.now, Refusal::Now)?;
        Ok(self.choose(now))
    }

    /// The choice made anew; a new or lost master wipes.
    fn choose(&mut self, now: i128) -> Answer {
        self.now = now;
        let master = self.table.choose(now);
        let wiped = master != self.chosen;
        self.chosen = master;
        if wiped {
            self.wipe();
        }
        Answer::Chosen { master, wiped }
    }

    /// 9, 18, 10, 16, 19 of a message of the exchange.
    fn check_message(&self, now: i128, message: &Message) -> Result<(), Refusal> {
        refuse(now < self.now, Refusal::Now)?;
        refuse(self.faulty, Refusal::Faulty)?;
        refuse(message.get("domain") != self.settings.domain, Refusal::Domain)?;
        refuse(self.chosen != Some(message.sender()), Refusal::NotMaster)?;
        let beyond = message.get("correction").abs() >= 65_536_000_000_000;
        refuse(beyond, Refusal::Correction)
    }

    fn sync(&mut self, now: i128, stamp: Stamp, message: &Message) -> Answered {
        let t2 = local(stamp)?;
        self.check_message(now, message)?;
        self.now = now;
        if self.since.exchange.is_back(t2) {
            self.wipe();
            return Ok(Answer::BackWiped);
        }
        let one_step = !flag(message, TWO_STEP);
        let t1 = one_step.then(|| message.timestamp());
        let sequence = message.get("sequence");
        let correction = message.get("correction");
        self.since.exchange.sync(sequence, t1, t2, correction);
        Ok(Answer::Held)
    }

    fn follow_up(&mut self, now: i128, message: &Message) -> Answered {
        self.check_message(now, message)?;
        self.since.exchange.follow_up(
            message.get("sequence"),
            message.timestamp(),
            message.get("correction"),
        )?;
        self.now = now;
        Ok(Answer::Paired)
    }

    fn response(&mut self, now: i128, message: &Message) -> Answered {
        self.check_message(now, message)?;
        let own = message.requesting() == self.settings.own();
        refuse(!own, Refusal::Unmatched)?;
        let finished = self.since.exchange.response(
            message.get("sequence"),
            message.timestamp(),
            message.get("correction"),
            now,
        )?;
        self.now = now;
        Ok(self.finish(finished))
    }

    /// What a finished measurement does to the unit.
    fn finish(&mut self, finished: Finished) -> Answer {
        let third = self.since.exchange.row(&finished) == 3;
        match finished {
            Finished::Neg => Answer::Neg,
            Finished::Long => Answer::Long,
            Finished::Huge => {
                self.faulty |= third;
                Answer::Huge { faulty: third }
            }
            Finished::Path => {
                if third {
                    self.wipe();
                }
                Answer::Path { wiped: third }
            }
            Finished::Accepted { offset, .. } if offset.abs() > 100_000_000 => {
                self.wipe();
                Answer::Step { offset }
            }
            Finished::Accepted { delay, used, offset, .. } => {
                self.since.servo.take(offset, &self.settings);
                Answer::Measured { delay, used, offset, output: self.since.servo.output }
            }
        }
    }

    /// A Delay_Req into a lent frame: 9, 18, 16, 7.
    pub fn request(&mut self, now: i128, frame: &mut [u8]) -> Answered {
        refuse(now < self.now, Refusal::Now)?;
        refuse(self.faulty, Refusal::Faulty)?;
        refuse(self.chosen.is_none(), Refusal::NotMaster)?;
        let sequence = self.requests % 65_536;
        let lent = frame.get_mut(ETHERNET..).ok_or(Refusal::Room)?;
        message::write(&self.delay_req(sequence), lent)?;
        self.now = now;
        self.requests += 1;
        self.since.exchange.request(sequence);
        let frame = frame.to_vec();
        Ok(Answer::Asked { sequence, frame })
    }

    /// The own request; all that is not said here is 0 (rule 2.13).
    fn delay_req(&self, sequence: i128) -> Message {
        Message::blank(DELAY_REQ)
            .with("domain", self.settings.domain)
            .with("clock", self.settings.clock)
            .with("port", self.settings.port)
            .with("sequence", sequence)
            .with("control", 1)
            .with("interval", 0x7f)
    }

    /// The stamp t3 of a request: 5, 9, 18, 16, 17.
    pub fn sent(&mut self, now: i128, sequence: i128, stamp: Stamp) -> Answered {
        let t3 = local(stamp)?;
        refuse(now < self.now, Refusal::Now)?;
        refuse(self.faulty, Refusal::Faulty)?;
        refuse(self.chosen.is_none(), Refusal::NotMaster)?;
        self.since.exchange.check_sent(sequence)?;
        self.now = now;
        if self.since.exchange.is_back(t3) {
            self.wipe();
            return Ok(Answer::BackWiped);
        }
        self.since.exchange.sent(t3);
        Ok(Answer::Stamped)
    }

    /// The operator's reset, which alone ends FAULTY (rule 10.10).
    pub fn reset(&mut self) -> Answer {
        self.wipe();
        self.faulty = false;
        Answer::Wiped
    }

    /// A second pulse's two stamps.
    pub fn tick(&mut self, reference: i128, clock: i128) -> Answered {
        watch::check_stamps(reference, clock)?;
        let pulse = self.since.watch.pulse(reference, clock, &self.settings);
        let answer = match pulse {
            Pulse::Valid => return Ok(Answer::Taken { valid: true }),
            Pulse::Invalid => return Ok(Answer::Taken { valid: false }),
            Pulse::Back => Answer::BackWiped,
            Pulse::Range => Answer::RangeWiped,
            Pulse::Jump => Answer::JumpWiped,
        };
        self.wipe();
        Ok(answer)
    }

    /// The drift line, refused 21 where it is not due.
    pub fn line(&self) -> Answered {
        let line = self.since.watch.line(&self.settings)?;
        let wipes = self.wipe_count();
        Ok(Answer::Line { line, wipes })
    }

    fn wipe_count(&self) -> i128 {
        self.wipes % (1 << 32)
    }

    pub fn show(&self) -> Answer {
        Answer::Shown(Shown {
            port: self.port_state(),
            servo: self.servo_state(),
            output: self.since.servo.output,
            now: self.now,
            master: self.chosen,
            wipes: self.wipe_count(),
            sequence: self.requests % 65_536,
        })
    }

    fn port_state(&self) -> &'static str {
        if self.faulty {
            "faulty"
        } else if self.chosen.is_none() {
            "listening"
        } else if self.since.exchange.accepted_at().is_none() {
            "uncalibrated"
        } else {
            "slave"
        }
    }

    fn servo_state(&self) -> &'static str {
        let at = self.since.exchange.accepted_at();
        if at.is_some_and(|at| self.now - at > 10_000) {
            "holdover"
        } else if self.since.servo.tracks() {
            "tracking"
        } else {
            "adjusting"
        }
    }
}

#[cfg(test)]
mod tests {
    use super::*;
    use crate::lists::settings::bench;

    #[test]
    fn the_wipe_count_is_shown_as_the_remainder_by_two_to_the_32() {
        let mut unit = Unit::fresh(bench()).unwrap();
        unit.wipes = (1 << 32) - 1;
        let wipes = |unit: &Unit| match unit.show() {
            Answer::Shown(shown) => shown.wipes,
            other => panic!("{other}"),
        };
        assert_eq!(wipes(&unit), 4_294_967_295);
        unit.reset();
        assert_eq!(wipes(&unit), 0);
    }

    /// Rule 2.14.
    #[test]
    fn the_own_sequence_id_begins_again_after_65_535() {
        let mut unit = Unit::fresh(bench()).unwrap();
        unit.chosen = Some(Identity::new(1, 1));
        unit.requests = 65_535;
        for expected in [65_535, 0, 1] {
            match unit.request(0, &mut [0; 58]) {
                Ok(Answer::Asked { sequence, frame }) => {
                    assert_eq!(sequence, expected);
                    assert_eq!(frame[44..46], (expected as u16).to_be_bytes());
                }
                other => panic!("{other:?}"),
            }
        }
    }

    #[test]
    fn a_wiped_unit_differs_from_a_fresh_one_by_its_count_alone() {
        let mut unit = Unit::fresh(bench()).unwrap();
        unit.tick(0, 0).unwrap();
        unit.tick(1_000_000_000, 1_000_000_000).unwrap();
        unit.reset();
        unit.wipes = 0;
        assert_eq!(unit, Unit::fresh(bench()).unwrap());
    }
}
