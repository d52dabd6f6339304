//! Random lists: a unit's life with all its accidents, weighted so that it gets into deep states.

use super::desk::Desk;
use super::frames::{self, read_line, write_line, KINDS};
use super::hall::{announce, Hall, Leg, Trip, MASTER, SECOND, TWO_STEP};
use super::settings;
use crate::dice::Dice;
use crate::message::Message;
use crate::settings::Settings;

/// A list of `count` calls; the same seed gives the same list.
pub fn list(seed: u64, count: usize) -> Vec<u8> {
    let mut life = Life::new(seed);
    while life.hall.desk.calls() < count {
        life.something();
    }
    first_lines(life.hall.close().text(), count)
}

/// Every line of a random list is a call, so its first lines are its first calls.
fn first_lines(text: Vec<u8>, count: usize) -> Vec<u8> {
    let lines = text.split_inclusive(|octet| *octet == b'\n');
    lines.take(count).flatten().copied().collect()
}

struct Life {
    hall: Hall,
    dice: Dice,
    senders: Vec<Message>,
    announced: i128,
    delay: i128,
    reference: i128,
    y: i128,
}

type Deed = fn(&mut Life);

impl Life {
    fn new(seed: u64) -> Life {
        let mut dice = Dice::new(seed);
        let all = good_settings(&mut dice);
        let mut life = Life {
            hall: Hall::open(Desk::default(), all),
            dice,
            senders: Vec::new(),
            announced: 0,
            delay: 10_000,
            reference: 0,
            y: 0,
        };
        life.people();
        life.meet();
        life
    }

    /// One deed, by weight.
    fn something(&mut self) {
        let deeds: [(u64, Deed); 20] = [
            (8, Life::quiet_run),
            (5, Life::noisy_run),
            (2, Life::swinging_run),
            (10, Life::odd_exchange),
            (12, Life::disorder),
            (10, Life::announces),
            (8, Life::odd_announce),
            (6, Life::pulses),
            (10, Life::odd_pulse),
            (15, Life::ask),
            (8, Life::clock),
            (4, Life::leap),
            (3, Life::succession),
            (2, Life::reset),
            (3, Life::other_unit),
            (3, Life::lend),
            (8, Life::wire),
            (12, Life::again),
            (12, Life::mangled),
            (8, Life::odd_request),
        ];
        // A faulty unit is left so for a while only: the exchange has more to show.
        if self.hall.desk.last() == "refused 18" && self.dice.once_in(3) {
            return self.reset();
        }
        if self.hall.desk.last() == "refused 9" && self.dice.once_in(2) {
            return self.look();
        }
        let all: u64 = deeds.iter().map(|(weight, _)| weight).sum();
        let mut at = self.dice.below(all);
        for (weight, deed) in deeds {
            if at < weight {
                return deed(self);
            }
            at -= weight;
        }
    }

    fn say(&mut self, line: &str) -> String {
        self.hall.say(line)
    }

    /// Senders with few different values, so that every key of the comparison decides at times.
    fn people(&mut self) {
        self.senders.clear();
        for place in 0..7 {
            let p1 = if place == 0 { 1 } else { self.dice.between(1, 3) };
            let sender = announce(MASTER + place, self.dice.between(1, 2))
                .with("p1", p1)
                .with("class", self.dice.between(6, 7))
                .with("variance", self.dice.between(0x7fff, 0x8000))
                .with("grandmaster", self.dice.between(1, 3))
                .with("steps", self.dice.between(0, 2));
            self.senders.push(sender);
        }
    }

    /// The first sender is heard twice and most likely chosen.
    fn meet(&mut self) {
        self.hear(0);
        self.hear(0);
    }

    fn hear(&mut self, place: usize) {
        let sender = self.senders[place].clone();
        let answer = self.hall.announce(&sender);
        self.announced = self.hall.now;
        self.follow(&answer);
    }

    /// The exchange's messages come from whoever is chosen.
    fn follow(&mut self, answer: &str) {
        let Some(chosen) = answer.strip_prefix("chosen ") else {
            return;
        };
        let name = chosen.split(' ').next().unwrap_or_default();
        if let Some((clock, port)) = name.split_once('-') {
            let clock = i128::from_str_radix(clock, 16).expect("a clock identity");
            let port = port.parse().expect("a port");
            self.hall.master = (clock, port);
        }
    }

    /// Time goes on, with the first sender's Announces at their interval.
    fn wait(&mut self, most: i128) {
        let pause = self.dice.between(0, most);
        self.later(pause);
        if self.hall.now - self.announced >= self.hall.settings.interval() {
            self.hear(0);
        }
    }

    fn a_trip(&mut self, delay: i128, offset: i128) -> Trip {
        let trip = self.hall.trip(delay + offset, delay - offset);
        Trip { two_step: self.dice.once_in(2), t1: trip.t1.max(0), t4: trip.t4.max(0), ..trip }
    }

    /// A whole exchange in order.
    fn measure(&mut self, delay: i128, offset: i128) {
        self.wait(300);
        let mut trip = self.a_trip(delay, offset);
        if self.dice.once_in(3) {
            self.correct(&mut trip);
        }
        let slow = self.dice.once_in(4);
        for leg in trip.legs() {
            if slow {
                let pause = self.dice.between(0, 20);
                self.later(pause);
            }
            self.hall.leg(*leg, &trip);
        }
    }

    /// Corrections that the stamps make good again but for a nanosecond or so.
    fn correct(&mut self, trip: &mut Trip) {
        let most = 65_536 * 50_000;
        trip.sync_correction = self.dice.between(-most, most);
        trip.t1 -= trip.sync_correction / 65_536;
        if trip.two_step {
            trip.follow_correction = self.dice.between(-most, most);
            trip.t1 -= trip.follow_correction / 65_536;
        }
        trip.response_correction = self.dice.between(-most, most);
        trip.t4 += trip.response_correction / 65_536;
        (trip.t1, trip.t4) = (trip.t1.max(0), trip.t4.max(0));
    }

    fn quiet_run(&mut self) {
        let size = *self.dice.pick(&[3, 20, 99]);
        let level = *self.dice.pick(&[0, 0, 30, -60]);
        for _ in 0..self.dice.between(1, 14) {
            let offset = level + self.dice.between(-size, size);
            self.measure(self.delay, offset);
        }
    }

    fn noisy_run(&mut self) {
        let size = *self.dice.pick(&[1_000, 50_000, 3_000_000]);
        let change = *self.dice.pick(&[0, 800, 1_001, 5_000, 300_000]);
        for _ in 0..self.dice.between(1, 8) {
            let delay = self.delay + self.dice.between(-change, change);
            self.delay = delay.clamp(0, 9_999_999);
            let offset = self.dice.between(-size, size);
            self.measure(self.delay, offset);
        }
    }

    fn swinging_run(&mut self) {
        let size = *self.dice.pick(&[1, 50, 2_000, 400_000]);
        for place in 0..self.dice.between(8, 24) {
            let sign = if place % 2 == 0 { 1 } else { -1 };
            let zero = self.dice.once_in(9);
            let offset = if zero { 0 } else { sign * self.dice.between(1, size) };
            self.measure(self.delay, offset);
        }
    }

    /// Measurements that end at the edge of a verdict, often several in a row.
    fn odd_exchange(&mut self) {
        let delay = self.delay;
        let sign = *self.dice.pick(&[1, -1]);
        let near = self.dice.between(-1, 1);
        let kinds = [
            (delay, sign * (100_000_000 + near)),
            (delay, sign * (SECOND + near)),
            (delay, sign * 5 * SECOND),
            (delay + sign * (1_000_000 + near), 5),
            (delay + sign * 2_000_000, 5),
            (delay + sign * (1_000 + near), 5),
            (10_000_000 + near, 17),
            (near, 0),
            (-5, 3),
        ];
        let (delay, offset) = *self.dice.pick(&kinds);
        let times = *self.dice.pick(&[1, 1, 2, 3, 3, 4]);
        for _ in 0..times {
            let half = self.dice.between(0, 1);
            self.measure(delay, offset + half);
        }
    }

    /// Legs lost, doubled, out of order and of other trips.
    fn disorder(&mut self) {
        self.wait(100);
        let mut trip = self.a_trip(self.delay, 40);
        let mut legs = TWO_STEP.to_vec();
        match self.dice.below(4) {
            0 => self.dice.shuffle(&mut legs),
            1 => drop(legs.remove(self.dice.below(5) as usize)),
            2 => legs.insert(self.dice.below(6) as usize, *self.dice.pick(&TWO_STEP)),
            _ => match self.dice.below(5) {
                0 => trip.asked = self.dice.between(0, 65_535),
                1 => trip.t2 -= self.dice.between(0, 2 * SECOND),
                2 => trip.t3 -= self.dice.between(0, 2 * SECOND),
                3 => trip.sync_correction = 65_536_000_000_000 - self.dice.between(0, 1),
                _ => trip.response_correction = self.dice.between(0, 1) - 65_536_000_000_000,
            },
        }
        (trip.t2, trip.t3) = (trip.t2.max(0), trip.t3.max(0));
        self.hall.go(&legs, &trip);
        if self.dice.once_in(2) {
            self.spoilt_message(&trip);
        }
    }

    /// One message of a trip with a field changed.
    fn spoilt_message(&mut self, trip: &Trip) {
        let leg = *self.dice.pick(&[Leg::Sync, Leg::FollowUp, Leg::Response]);
        let mut message = self.hall.message(leg, trip);
        let (name, value) = *self.dice.pick(&[
            ("domain", 77),
            ("port", 900),
            ("clock", 5),
            ("sequence", 3),
            ("correction", i64::MIN as i128),
            ("flags", 0x0300),
            ("sdo", 9),
            ("nanos", 1_000_000_000),
        ]);
        message = message.with(name, value);
        self.hall.receive(trip.t2, &message.octets());
    }

    fn announces(&mut self) {
        for _ in 0..self.dice.between(1, 6) {
            let place = *self.dice.pick(&[0, 0, 0, 1, 2, 3, 4, 5, 6]);
            self.hear(place);
            if self.dice.once_in(3) {
                self.wait(200);
            }
        }
    }

    /// An Announce at the edge of a refusal, or the last one once more.
    fn odd_announce(&mut self) {
        if self.dice.once_in(5) {
            return drop(self.hall.repeat());
        }
        let own = self.hall.settings.clock;
        let (name, value) = *self.dice.pick(&[
            ("steps", 254),
            ("steps", 255),
            ("flags", 0x0100),
            ("flags", 0xfe00),
            ("clock", own),
            ("p1", 0),
            ("p1", 255),
            ("grandmaster", 2),
            ("nanos", 1_000_000_000),
            ("control", 0),
        ]);
        let sender = self.dice.pick(&self.senders).clone().with(name, value);
        if self.dice.once_in(4) {
            // Its own sequenceId and domain, whatever they are.
            let other = sender.with("sequence", self.dice.between(1, 9));
            self.hall.receive(0, &other.octets());
        } else {
            let answer = self.hall.announce(&sender);
            self.follow(&answer);
        }
    }

    fn tick(&mut self, interval: i128) {
        self.reference = (self.reference + interval).max(0);
        let clock = (self.reference + self.y).max(0);
        let answer = self.say(&format!("tick {} {clock}", self.reference));
        if answer.ends_with("wiped") {
            self.y = 0;
        }
    }

    fn pulses(&mut self) {
        let most = self.hall.settings.spike.min(40_000);
        let drift = self.dice.between(-most, most);
        let noise = *self.dice.pick(&[0, 5, 900]);
        let bad = *self.dice.pick(&[6, 30, 1_000]);
        let most = if self.dice.once_in(6) { 150 } else { 15 };
        for _ in 0..self.dice.between(1, most) {
            self.y += drift + self.dice.between(-noise, noise);
            let late =
                if self.dice.once_in(bad) { 150_000_000 } else { self.dice.between(-100, 100) };
            self.tick(SECOND + late);
            if self.dice.once_in(9) {
                self.say("line");
            }
        }
        self.say("line");
    }

    /// Pulses at the edges of spike, jump, range, tolerance and the stamps themselves.
    fn odd_pulse(&mut self) {
        let near = self.dice.between(-1, 1);
        let sign = *self.dice.pick(&[1, -1]);
        let Settings { tolerance, spike, jump, .. } = self.hall.settings;
        match self.dice.below(7) {
            0 => self.y += sign * (spike + near),
            1 => self.y += sign * (jump + near),
            2 => self.y = sign * (SECOND + near),
            3 => return self.tick(SECOND + sign * (tolerance + near)),
            4 => return self.tick(near),
            5 => return drop(self.say(&format!("tick {} {}", (1_i128 << 62) - 1 + near, 5))),
            _ => return drop(self.say(&format!("tick {} {near}", self.reference + SECOND))),
        }
        self.tick(SECOND);
    }

    fn ask(&mut self) {
        let line = *self.dice.pick(&["show", "show", "line"]);
        self.say(line);
    }

    fn clock(&mut self) {
        let now = self.hall.now + self.dice.between(-1, 1);
        let now = now.clamp(0, u64::MAX as i128);
        let answer = self.say(&format!("time {now}"));
        self.hall.now = self.hall.now.max(now);
        self.follow(&answer);
    }

    /// Time goes on to the edge of something, and nobody has announced meanwhile.
    fn leap(&mut self) {
        let interval = self.hall.settings.interval();
        let edges = [interval, 3 * interval, 4 * interval, 10_000, 40_000];
        let later = *self.dice.pick(&edges) + self.dice.between(-1, 1);
        self.later(later);
        if self.dice.once_in(2) {
            let answer = self.hall.time();
            self.follow(&answer);
        } else {
            let place = self.dice.below(7) as usize;
            self.hear(place);
        }
        self.hall.show();
        if self.dice.once_in(2) {
            self.meet();
        }
    }

    /// One sender falls silent and the next one is there: the time call chooses it.
    fn succession(&mut self) {
        let next = 1 + self.dice.below(6) as usize;
        let interval = self.hall.settings.interval();
        self.meet();
        self.later(interval);
        self.hear(next);
        self.hear(next);
        self.later(2 * interval);
        for _ in 0..2 {
            let answer = self.hall.time();
            self.follow(&answer);
            self.later(1);
        }
    }

    fn later(&mut self, milliseconds: i128) {
        self.hall.now = (self.hall.now + milliseconds).min(u64::MAX as i128);
    }

    /// Sets the clock by what the unit shows, after a mangled line has set the unit's.
    fn look(&mut self) {
        let shown = self.say("show");
        let now = shown.split(' ').find_map(|word| word.strip_prefix("now="));
        if let Some(now) = now {
            self.hall.now = now.parse().expect("now is a number");
        }
    }

    fn reset(&mut self) {
        self.say("reset");
        self.y = 0;
    }

    fn other_unit(&mut self) {
        let mut all = good_settings(&mut self.dice);
        if self.dice.once_in(4) {
            spoil(&mut all, &mut self.dice);
        }
        if self.say(&settings::line(&all)) == "refused 8" {
            return;
        }
        self.hall.settings = all;
        self.hall.next = 0;
        self.hall.now = *self.dice.pick(&[0, 1_000, 5_000_000_000, u64::MAX as i128 - 200_000]);
        self.hall.local =
            *self.dice.pick(&[0, SECOND, 1_000_000 * SECOND, ((1 << 48) - 300) * SECOND]);
        self.announced = self.hall.now;
        (self.reference, self.y, self.delay) = (0, 0, self.dice.between(0, 3_000_000));
        self.people();
        self.meet();
    }

    fn lend(&mut self) {
        let count = self.dice.between(0, 9);
        self.say(&format!("lend {count}"));
        self.hear(0);
        self.clock();
        self.disorder();
        self.say("lend 5");
    }

    fn wire(&mut self) {
        let kind = *self.dice.pick(&KINDS);
        let count = self.dice.below(3) as usize;
        let suffix = frames::tlvs(count, &mut self.dice);
        let message = frames::random(kind, &mut self.dice).with_suffix(&suffix);
        let mut octets = message.octets();
        if self.dice.once_in(2) {
            // Version, length and nanoseconds, or any octet.
            let any = self.dice.below(octets.len() as u64) as usize;
            let place = *self.dice.pick(&[1, 3, 3, 40, any]);
            octets[place] = self.dice.roll() as u8;
        }
        if self.dice.once_in(5) {
            octets.pop();
        }
        let room = octets.len() + self.dice.below(9) as usize;
        match self.dice.below(3) {
            0 => self.say(&read_line(&octets)),
            1 => self.say(&write_line(&message, room)),
            _ => self.hall.receive(self.hall.local, &octets),
        };
    }

    /// One of the last lines.
    fn earlier(&mut self) -> Vec<u8> {
        let back = self.dice.below(30) as usize;
        let line = self.hall.desk.earlier(back);
        line.unwrap_or_else(|| b"show".to_vec())
    }

    /// One of the last lines once more.
    fn again(&mut self) {
        let line = self.earlier();
        self.hall.desk.say(line);
    }

    /// One of the last lines with a character changed, lost or put in.
    fn mangled(&mut self) {
        let mut line = self.earlier();
        let place = self.dice.below(line.len() as u64) as usize;
        let character = *self.dice.pick(b"0123456789abcdef -+\tAx\r\xff");
        match self.dice.below(3) {
            0 => line[place] = character,
            1 => line.insert(place, character),
            _ => drop(line.remove(place)),
        }
        if !line.is_empty() {
            self.hall.desk.say(line);
        }
    }

    /// Requests into frames of every room, and stamps at the edge of what a stamp can be.
    fn odd_request(&mut self) {
        let length = *self.dice.pick(&[0, 13, 14, 57, 58, 59, 60, 100, 2_000]);
        self.hall.request(length);
        let (now, asked) = (self.hall.now, self.hall.next + 65_535 + self.dice.between(0, 1));
        let seconds =
            *self.dice.pick(&[0, 1_000_000, self.hall.local / SECOND, (1 << 48) - 1, 1 << 48]);
        let nanos = *self.dice.pick(&[0, 999_999_999, 1_000_000_000]);
        self.say(&format!("sent {now} {} {seconds} {nanos}", asked % 65_536));
    }
}

/// Settings within their ranges, often such that windows fill and lines come soon.
fn good_settings(dice: &mut Dice) -> Settings {
    let window = *dice.pick(&[2, 3, 8, 8, 20, 120, 128]);
    let spike = *dice.pick(&[1, 100_000, 1_000_000, 1_000_000, 999_999_998]);
    let wide = dice.between(spike + 1, 999_999_999);
    Settings {
        domain: dice.between(0, 2),
        clock: 0x0200_00ff_fe00_0009,
        port: dice.between(1, 2),
        announce: dice.between(0, 4),
        sync: dice.between(0, 7),
        kp: *dice.pick(&[100, 490, 700, 1_000]),
        ki: *dice.pick(&[10, 300, 500]),
        limit: *dice.pick(&[1, 500, 100_000]),
        window,
        minimum: dice.between(2, window.min(12)),
        holdoff: dice.between(0, 10),
        tolerance: *dice.pick(&[0, 2_000_000, 2_000_000, 100_000_000]),
        spike,
        jump: *dice.pick(&[spike + 1, wide, wide.min(2 * spike)]).max(&(spike + 1)),
    }
}

/// One setting outside its range.
fn spoil(all: &mut Settings, dice: &mut Dice) {
    match dice.below(11) {
        0 => all.announce = *dice.pick(&[-1, 5]),
        1 => all.sync = *dice.pick(&[-1, 8]),
        2 => all.kp = *dice.pick(&[99, 1_001]),
        3 => all.ki = *dice.pick(&[9, 501]),
        4 => all.limit = *dice.pick(&[0, 100_001]),
        5 => all.window = *dice.pick(&[1, 129]),
        6 => all.minimum = *dice.pick(&[1, all.window + 1]),
        7 => all.holdoff = *dice.pick(&[-1, 11]),
        8 => all.tolerance = *dice.pick(&[-1, 100_000_001]),
        9 => all.spike = *dice.pick(&[0, all.jump]),
        _ => all.jump = *dice.pick(&[all.spike, 1_000_000_000]),
    }
}
