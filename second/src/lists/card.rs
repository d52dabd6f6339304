//! The list `card`: settings at their ends and deep states of the whole unit.

use super::desk::Desk;
use super::frames::{plain, with_length, KINDS};
use super::hall::{announce, Hall, Leg, MASTER, SECOND, TWO_STEP};
use super::settings;
use crate::settings::Settings;

pub fn list() -> Vec<u8> {
    let mut desk = ends(Desk::default());
    desk = units(desk);
    desk = unreadable(desk);
    for cause in 0..CAUSES.len() {
        desk = wiped(desk, cause, 8);
        desk = wiped(desk, cause, 128);
    }
    desk = faulty(desk);
    desk = two_halls(desk);
    desk = halved(desk);
    desk = crowded(desk);
    desk.text()
}

/// The sequenceId over its end takes 65,536 requests, so it is a list of its own.
pub fn sequence() -> Vec<u8> {
    let mut hall = Hall::with_master(Desk::default(), settings::exchange());
    for _ in 0..65_534 {
        hall.request(58);
    }
    for _ in 0..4 {
        hall.show();
        hall.exchange(10_500, 10_000);
    }
    hall.show();
    hall.close().text()
}

/// Each setting at its ends and one past them.
fn ends(mut desk: Desk) -> Desk {
    desk.note("card: settings at their ends");
    type Set = fn(&mut Settings, i128);
    let settings: [(Set, i128, i128); 11] = [
        (|all, value| all.announce = value, 0, 4),
        (|all, value| all.sync = value, 0, 7),
        (|all, value| all.kp = value, 100, 1_000),
        (|all, value| all.ki = value, 10, 500),
        (|all, value| all.limit = value, 1, 100_000),
        (|all, value| all.window = value, 30, 128),
        (|all, value| all.minimum = value, 2, 120),
        (|all, value| all.holdoff = value, 0, 10),
        (|all, value| all.tolerance = value, 0, 100_000_000),
        (|all, value| all.spike = value, 1, 1_999_999),
        (|all, value| all.jump = value, 1_000_001, 999_999_999),
    ];
    for (set, first, last) in settings {
        for value in [first - 1, first, last, last + 1, -1, i64::MIN as i128, i64::MAX as i128] {
            let mut all = settings::bench();
            set(&mut all, value);
            desk.say(settings::line(&all));
        }
    }
    pairs_of_settings(desk)
}

/// Ranges that hang on another setting: minimum up to W, jump over spike.
fn pairs_of_settings(mut desk: Desk) -> Desk {
    for (window, minimum) in
        [(2, 2), (2, 3), (1, 2), (2, 1), (128, 128), (128, 129), (129, 129), (3, 2)]
    {
        let all = Settings { window, minimum, ..settings::bench() };
        desk.say(settings::line(&all));
    }
    let nearly = 999_999_998;
    for (spike, jump) in [
        (1, 2),
        (1, 1),
        (2, 1),
        (0, 1),
        (nearly, nearly + 1),
        (nearly, nearly),
        (nearly + 1, nearly + 2),
    ] {
        let all = Settings { spike, jump, ..settings::bench() };
        desk.say(settings::line(&all));
    }
    desk
}

/// A refused `unit` line leaves the unit that was there, an accepted one does not; `lend` stays.
fn units(desk: Desk) -> Desk {
    let mut hall = Hall::with_master(desk, small(8));
    hall.note("card: one unit after another");
    (0..4).for_each(|place| drop(hall.measure(10_000, 100 * place)));
    pulses(&mut hall, 10);
    let mut refused = small(8);
    refused.kp = 99;
    hall.say(&settings::line(&refused));
    hall.show();
    hall.say("line");
    hall.say("lend 6");
    hall.say(&settings::line(&small(8)));
    hall.say("time 0");
    hall.say("lend 5");
    hall.say("time 0");
    hall.show();
    hall.say("line");
    hall.close()
}

/// Messages that can't be read come to nothing, whatever else would be refused; and all kinds.
fn unreadable(desk: Desk) -> Desk {
    let mut hall = Hall::with_master(desk, small(8));
    hall.note("card: messages that can't be read");
    for kind in KINDS {
        let good = plain(kind).with("domain", 0).octets();
        let mut cases =
            vec![good[..33].to_vec(), good[..43].to_vec(), with_length(good.clone(), 43)];
        cases.push(plain(kind).with("nanos", 1_000_000_000).octets());
        cases.push(plain(kind).with_suffix(&[0, 8, 0, 1, 0]).octets());
        cases.push([&good[..1], &[0x13], &good[2..]].concat());
        cases.push([&[0x0d], &good[1..]].concat());
        cases.push(good);
        for octets in cases {
            for (count, now) in [(5, 1_000), (4, 1_000), (5, 999)] {
                hall.now = now;
                hall.say(&format!("lend {count}"));
                hall.receive(0, &octets);
            }
        }
    }
    hall.say("lend 5");
    hall.show();
    hall.close()
}

fn small(window: i128) -> Settings {
    Settings { announce: 4, window, minimum: 3, holdoff: 2, ..settings::bench() }
}

/// Good pulses with a drift of 7 ns a second, after 100 s.
fn pulses(hall: &mut Hall, count: i128) {
    for place in 1..=count {
        let reference = (100 + place) * SECOND;
        hall.tick(reference, reference + 7 * place);
    }
}

type Cause = fn(&mut Hall);

/// The causes of a wipe; BACK in t2 and in t3.
const CAUSES: [(&str, Cause); 10] = [
    ("new master", |hall| {
        let better = announce(0x30, 1).with("p1", 1);
        hall.announce(&better);
        hall.announce(&better);
    }),
    ("lost master", |hall| {
        hall.now += 3 * hall.settings.interval() + 1;
        hall.time();
    }),
    ("STEP", |hall| drop(hall.measure(10_000, 100_000_001))),
    ("third PATH", |hall| (0..3).for_each(|_| drop(hall.measure(5_000_000, 0)))),
    ("BACK of t2", |hall| {
        let mut trip = hall.trip(10_500, 10_000);
        trip.t2 -= 30 * SECOND;
        hall.leg(Leg::Sync, &trip);
    }),
    ("BACK of t3", |hall| {
        let mut trip = hall.trip(10_500, 10_000);
        trip.t3 -= 30 * SECOND;
        hall.go(&TWO_STEP[..4], &trip);
    }),
    ("watch BACK", |hall| drop(hall.tick(0, 0))),
    ("RANGE", |hall| drop(hall.tick(900 * SECOND, 899 * SECOND))),
    ("JUMP", |hall| drop(hall.tick(900 * SECOND, 900 * SECOND + 9_000_000))),
    ("reset", |hall| drop(hall.reset())),
];

/// Everything that a wipe empties is filled, one cause wipes, and all is asked for again.
fn wiped(desk: Desk, cause: usize, window: i128) -> Desk {
    let (name, wipe) = CAUSES[cause];
    let mut hall = Hall::with_master(desk, small(window));
    hall.note(&format!("card: wiped by {name}, window {window}"));
    (0..12).for_each(|place| drop(hall.measure(10_000 + place, 20 + place % 3)));
    pulses(&mut hall, window + 3);
    hall.say("line");
    hall.show();
    (0..2).for_each(|_| drop(hall.measure(8_000_000, 5)));
    let held = hall.trip(10_500, 10_000);
    hall.go(&TWO_STEP[..4], &held);
    wipe(&mut hall);
    hall.show();
    hall.say("line");
    for leg in [Leg::FollowUp, Leg::Sent, Leg::Response] {
        hall.leg(leg, &held);
    }
    hall.announce(&announce(MASTER, 1));
    hall.announce(&announce(MASTER, 1));
    hall.say("line");
    hall.measure(9_000_000, 40);
    hall.measure(9_900_000, 40);
    pulses(&mut hall, 4);
    hall.say("line");
    hall.show();
    hall.close()
}

/// FAULTY: the exchange is shut, everything else runs on, and only a reset ends it.
fn faulty(desk: Desk) -> Desk {
    let mut hall = Hall::with_master(desk, small(8));
    hall.note("card: FAULTY and back");
    for round in 0..2 {
        (0..12).for_each(|place| drop(hall.measure(10_000, place)));
        pulses(&mut hall, 9);
        (0..3).for_each(|_| drop(hall.measure(10_000, 2 * SECOND)));
        hall.show();
        hall.exchange(10_500, 10_000);
        hall.say("line");
        hall.tick(120 * SECOND, 120 * SECOND);
        let better = announce(0x40 + round, 1).with("p1", 3 - round);
        hall.announce(&better);
        hall.announce(&better);
        hall.show();
        hall.exchange(10_500, 10_000);
        hall.now += 3 * hall.settings.interval() + 1;
        hall.time();
        hall.show();
        hall.exchange(10_500, 10_000);
        hall.tick(50 * SECOND, 50 * SECOND);
        hall.tick(49 * SECOND, 50 * SECOND);
        hall.show();
        hall.reset();
        hall.show();
        hall.announce(&announce(MASTER, 1));
        hall.announce(&announce(MASTER, 1));
        hall.show();
        hall.exchange(10_500, 10_000);
    }
    hall.close()
}

/// A recorder that moves from one hall to another: nothing of the first is in the second's lines.
fn two_halls(desk: Desk) -> Desk {
    let settings = Settings { announce: 1, ..settings::bench() };
    let mut hall = Hall::with_master(desk, settings);
    hall.note("card: two halls");
    for (clock, drift) in [(MASTER, 40), (0x0200_00ff_fe00_0077, -2_500)] {
        hall.master = (clock, 1);
        hall.announce(&announce(clock, 1));
        hall.announce(&announce(clock, 1));
        hall.show();
        for second in 0..125 {
            hall.now += 1_000;
            hall.announce(&announce(clock, 1));
            if second % 5 == 0 {
                hall.measure(12_000, 2_000 - 15 * second);
            }
            let reference = (5_000 + second) * SECOND + 300 * second;
            hall.tick(reference, reference + drift * second);
            if !(35..=118).contains(&second) {
                hall.say("line");
            }
        }
        hall.show();
        hall.now += 60_000;
        hall.time();
        hall.say("line");
    }
    hall.close()
}

/// Gains halved by swings and given back by each of two wipes.
fn halved(desk: Desk) -> Desk {
    let mut hall = Hall::with_master(desk, small(8));
    hall.note("card: halved gains and a wipe");
    for _ in 0..2 {
        for place in 0..25 {
            hall.measure(10_000, if place % 2 == 0 { 5_000 } else { -5_000 });
        }
        hall.tick(SECOND, 0);
        hall.tick(SECOND, 0);
        hall.measure(10_000, 5_000);
        hall.show();
    }
    hall.close()
}

/// A table full of masters that take turns at being the best, with exchanges between.
fn crowded(desk: Desk) -> Desk {
    let mut hall = Hall::open(desk, small(8));
    hall.note("card: a table full of masters");
    for round in 0..12 {
        for place in 0..6 {
            let p1 = 10 + (place + round) % 5;
            hall.announce(&announce(0x500 + place, 1).with("p1", p1));
        }
        let best = (0..5).min_by_key(|place| (place + round) % 5).unwrap_or(0);
        hall.master = (0x500 + best, 1);
        hall.measure(10_000, 50);
        hall.measure(10_500, 60);
        pulses(&mut hall, 3);
        hall.say("line");
        hall.show();
        hall.now += 1_000;
    }
    hall.close()
}
