//! An hour of a unit's life, as a picture of it is to show: it is steered, loses its master, finds
//! another, is stepped, and its oscillator jumps.

use super::desk::Desk;
use super::hall::{announce, Hall, Trip, MASTER, ONE_STEP, SECOND};
use super::settings;
use crate::dice::Dice;
use crate::message::Message;
use crate::settings::Settings;

/// True time at the start, in ns.
const START: i128 = 1_700_000_000 * SECOND;

/// Eight measurements a second; masters announce themselves once a second.
const EACH: i128 = SECOND / 8;

struct Hour {
    hall: Hall,
    dice: Dice,
    /// The local clock less true time, in ns.
    ahead: i128,
    /// What the unit says, in ppb; positive slows the clock.
    output: i128,
    /// The free oscillator's stamp of the last pulse, and how far the clock is ahead of it.
    reference: i128,
    apart: i128,
}

/// The list of so many seconds; an hour shows all that there is to show.
pub fn list(seconds: i128) -> Vec<u8> {
    let all = Settings { announce: 0, sync: 3, ..settings::bench() };
    let mut hour = Hour {
        hall: Hall::open(Desk::default(), all),
        dice: Dice::new(2026),
        ahead: 40_000,
        output: 0,
        reference: 5 * SECOND,
        apart: 4_000,
    };
    (0..seconds).for_each(|second| hour.second(second));
    hour.hall.close().text()
}

/// Who announces itself in this second: one until minute 25, another from 20 s later on.
fn announcer(second: i128) -> Option<Message> {
    match second {
        0..=1_499 => Some(announce(MASTER, 1)),
        1_500..=1_519 => None,
        _ => Some(announce(MASTER + 1, 1)),
    }
}

/// How much longer than its shortest a way may be, in ns: the link is noisy for two minutes.
fn jitter(second: i128) -> i128 {
    if (900..1_020).contains(&second) {
        20_000
    } else {
        300
    }
}

impl Hour {
    fn second(&mut self, second: i128) {
        self.hall.now = 1_000 * (second + 1);
        match announcer(second) {
            Some(message) => self.announced(&message),
            None => drop(self.hall.time()),
        }
        match second {
            // The master's time leaps.
            2_400 => self.ahead += 150_000_000,
            // The free oscillator jumps, and is out of its place for one pulse.
            3_000 => self.apart += 3_000_000,
            700 => self.apart += 1_500_000,
            701 => self.apart -= 1_500_000,
            _ => {}
        }
        for part in 0..8 {
            self.measure(second, START + second * SECOND + part * EACH);
        }
        self.pulse(second);
        if second % 60 == 59 {
            self.hall.desk.say_all(["line", "show"]);
        }
    }

    fn announced(&mut self, message: &Message) {
        self.hall.master = (message.get("clock"), 1);
        self.hall.announce(message);
    }

    /// The oscillator's own error in ppb: 18 ppm, and 400 ppb more or less in twenty minutes.
    fn error(second: i128) -> i128 {
        let wave = second % 1_200;
        let wave = if wave < 600 { wave } else { 1_200 - wave };
        18_000 + wave * 800 / 600 - 400
    }

    fn measure(&mut self, second: i128, at: i128) {
        self.ahead += (Hour::error(second) - self.output) * EACH / SECOND;
        let noise = jitter(second);
        let there = 10_000 + self.dice.between(0, noise);
        let back = 10_000 + self.dice.between(0, noise);
        let t2 = at + there + self.ahead;
        let t3 = t2 + 1_000_000;
        let trip = Trip {
            two_step: false,
            sequence: at / EACH % 65_536,
            asked: self.hall.next,
            t1: at,
            t2,
            // In minute 55 a stamp of sending is handed over that is older than the Sync's.
            t3: if at == START + 3_300 * SECOND { t2 - 5_000_000 } else { t3 },
            t4: t3 - self.ahead + back,
            sync_correction: 0,
            follow_correction: 0,
            response_correction: 0,
        };
        let answer = self.hall.go(&ONE_STEP, &trip);
        self.hall.now += 125;
        self.obey(&answer);
    }

    /// What the caller does: the clock is steered by the output, and set by a step's offset.
    fn obey(&mut self, answer: &str) {
        let number = |name: &str| {
            let (_, behind) = answer.split_once(name)?;
            behind.split(' ').next()?.parse::<i128>().ok()
        };
        if answer.starts_with("step") {
            self.ahead -= number("offset=").expect("a step has its offset");
        }
        if answer.ends_with("wiped") {
            self.output = 0;
        }
        self.output = number("output=").unwrap_or(self.output);
    }

    /// A second pulse; now and then it comes late, and then it is not valid.
    fn pulse(&mut self, second: i128) {
        let late = if second % 97 == 96 { 4_000_000 } else { 0 };
        self.reference += SECOND + late;
        self.apart += 50 + Hour::error(second) / 200 + self.dice.between(-40, 40);
        self.hall.tick(self.reference, self.reference + self.apart);
    }
}
