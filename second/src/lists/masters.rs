//! The list `masters`: arrivals, places, comparison, choice and their refusals.

use super::desk::Desk;
use super::hall::{announce, Hall, MASTER};
use super::settings::bench;
use crate::dice::Dice;
use crate::message::{Message, DELAY_REQ};
use crate::settings::Settings;
use crate::text::hex;

const LAST: i128 = u64::MAX as i128;

pub fn list() -> Vec<u8> {
    let mut desk = Desk::default();
    desk.note("masters: no maximum");
    desk = no_maximum(desk);
    for exponent in 0..=4 {
        desk.note(&format!("masters: announce exponent {exponent}"));
        desk = arrivals(desk, exponent);
    }
    desk = ends_of_now(desk);
    desk = full_table(desk);
    desk = returns(desk);
    desk = repeats(desk);
    desk = single_refusals(desk);
    desk = orders(desk);
    desk = comparisons(desk);
    desk = changes(desk);
    desk = crowd(desk, 2_000);
    desk.text()
}

fn with_interval(exponent: i128) -> Settings {
    Settings { announce: exponent, ..bench() }
}

/// A, B and C of rule 5.15, which stand in the table in the order of their first Announce.
fn abc() -> [Message; 3] {
    let made = |clock: i128, grandmaster: i128, p1: i128, steps: i128| {
        announce(clock, 1).with("grandmaster", grandmaster).with("p1", p1).with("steps", steps)
    };
    [made(0xa, 0x10, 10, 3), made(0xb, 0x10, 200, 1), made(0xc, 0x20, 100, 0)]
}

fn no_maximum(mut desk: Desk) -> Desk {
    let all = abc();
    for order in [[0, 1, 2], [0, 2, 1], [1, 0, 2], [1, 2, 0], [2, 0, 1], [2, 1, 0]] {
        let mut hall = Hall::open(desk, bench());
        for _ in 0..2 {
            for place in order {
                hall.announce(&all[place]);
            }
        }
        hall.time();
        hall.show();
        desk = hall.close();
    }
    desk
}

/// Two arrivals this far apart, and then time calls around 3 and 4 intervals.
fn arrivals(mut desk: Desk, exponent: i128) -> Desk {
    let settings = with_interval(exponent);
    let interval = settings.interval();
    for apart in [0, 1, interval, 3 * interval, 4 * interval - 1, 4 * interval, 4 * interval + 1] {
        for later in [3 * interval, 4 * interval - apart, 4 * interval] {
            let mut hall = Hall::open(desk, settings.clone());
            hall.announce(&announce(MASTER, 1));
            hall.now += apart;
            hall.announce(&announce(MASTER, 1));
            hall.now += (later - 1).max(0);
            for _ in 0..3 {
                hall.time();
                hall.now += 1;
            }
            hall.announce(&announce(MASTER, 1));
            hall.show();
            desk = hall.close();
        }
    }
    desk
}

/// Now at 0 and at the last number of 64 bits: no sum of times may wrap.
fn ends_of_now(mut desk: Desk) -> Desk {
    desk.note("masters: now at 0 and near 2^64");
    let interval = with_interval(4).interval();
    for first in
        [0, 1, LAST - 4 * interval - 1, LAST - 4 * interval, LAST - 3 * interval, LAST - 1, LAST]
    {
        let mut hall = Hall::open(desk, with_interval(4));
        hall.now = first;
        hall.announce(&announce(MASTER, 1));
        hall.announce(&announce(MASTER, 1));
        hall.time();
        for now in [LAST - 1, LAST, LAST - 1, 0, LAST] {
            hall.now = now;
            hall.time();
        }
        hall.announce(&announce(MASTER, 2));
        hall.announce(&announce(MASTER, 2));
        hall.show();
        hall.say("time 18446744073709551616");
        desk = hall.close();
    }
    desk
}

/// Five senders and a sixth, whichever of the five falls silent.
fn full_table(mut desk: Desk) -> Desk {
    desk.note("masters: a sixth sender");
    let interval = bench().interval();
    for silent in 0..5 {
        let mut hall = Hall::open(desk, bench());
        let sender = |place: i128| announce(0x100 + place, 1).with("p1", 100 - 10 * place);
        for place in 0..5 {
            hall.announce(&sender(place));
        }
        hall.announce(&sender(5));
        hall.now += interval;
        for place in (0..5).filter(|place| *place != silent) {
            hall.announce(&sender(place));
        }
        hall.now += 3 * interval;
        hall.announce(&sender(5));
        hall.now += 1;
        hall.announce(&sender(5));
        hall.announce(&sender(6));
        hall.announce(&sender(5));
        hall.announce(&sender(silent));
        hall.show();
        desk = hall.close();
    }
    desk
}

/// A sender that dies and returns: where it stands then shows in the choice of A, B and C.
fn returns(mut desk: Desk) -> Desk {
    desk.note("masters: a sender that dies and returns");
    let (all, other) = (abc(), announce(0xd, 1).with("p1", 255));
    let interval = bench().interval();
    for order in [[0, 1, 2], [0, 2, 1], [1, 2, 0], [2, 0, 1]] {
        for dead in 0..3 {
            let mut hall = Hall::open(desk, bench());
            hall.announce(&other);
            order.iter().for_each(|place| drop(hall.announce(&all[*place])));
            hall.now += interval;
            for place in order.iter().filter(|place| **place != dead) {
                hall.announce(&all[*place]);
            }
            // The first place and that of the dead one are free.
            hall.now += 3 * interval + 1;
            for _ in 0..2 {
                hall.announce(&all[dead]);
                order.iter().for_each(|place| drop(hall.announce(&all[*place])));
            }
            hall.announce(&other);
            hall.announce(&other);
            hall.show();
            desk = hall.close();
        }
    }
    desk
}

/// The same sequenceId again: renewed is nothing, and a dead sender's last one is no matter.
fn repeats(desk: Desk) -> Desk {
    let mut hall = Hall::open(desk, bench());
    hall.note("masters: a repeated sequenceId");
    let interval = bench().interval();
    let once = |clock: i128, sequence: i128| announce(clock, 1).with("sequence", sequence).octets();
    for (clock, sequence) in
        [(1, 7), (1, 7), (1, 8), (1, 8), (1, 7), (2, 7), (2, 7), (1, 65_535), (1, 0), (1, 0)]
    {
        hall.receive(0, &once(clock, sequence));
    }
    hall.now += 3 * interval;
    hall.time();
    hall.receive(0, &once(1, 0));
    hall.now += 1;
    hall.time();
    hall.now += interval - 1;
    hall.receive(0, &once(1, 0));
    hall.now += 1;
    hall.receive(0, &once(1, 0));
    hall.receive(0, &once(1, 0));
    hall.receive(0, &once(1, 1));
    hall.show();
    hall.close()
}

/// What is refused alone, beside what only looks like it.
fn single_refusals(desk: Desk) -> Desk {
    let mut hall = Hall::open(desk, bench());
    hall.note("masters: each refusal alone");
    let own = hall.settings.clock;
    let good = announce(MASTER, 1);
    let others = [
        good.clone().with("clock", own),
        good.clone().with("clock", own).with("port", 2),
        good.clone().with("grandmaster", own),
        good.clone().with("flags", 0x0100),
        good.clone().with("flags", 0xffff),
        good.clone().with("flags", 0x0001),
        good.clone().with("flags", 0xfeff),
        good.clone().with("steps", 254),
        good.clone().with("steps", 255),
        good.clone().with("steps", 256),
        good.clone().with("steps", 65_535),
        good.clone().with("interval", -128),
        good.clone().with("correction", i64::MIN as i128),
        good.clone().with("sdo", 15).with("minor", 15).with("control", 255),
    ];
    for message in others {
        hall.announce(&message);
        hall.show();
    }
    let strange = good.with("domain", 1).octets();
    hall.receive(0, &strange);
    hall.receive(0, &Message::blank(DELAY_REQ).octets());
    // A stamp is looked at for a Sync only.
    let line =
        format!("receive 1000 18446744073709551615 4294967295 {}", hex(&announce(3, 1).octets()));
    hall.say(&line);
    hall.close()
}

/// 8 and 9 to 15 at once, for a new sender, a known one and a full table.
fn orders(desk: Desk) -> Desk {
    let mut hall = Hall::open(desk, bench());
    hall.note("masters: several refusals hold at once");
    for place in 0..5 {
        hall.announce(&announce(0x200 + place, 1));
    }
    let own = hall.settings.clock;
    for set in 0..64_u32 {
        let wrong = |bit: u32| set >> bit & 1 == 1;
        for (clock, sequence) in [(0x200, 1), (0x900, 9)] {
            let choose = |bit: u32, bad: i128, good: i128| if wrong(bit) { bad } else { good };
            let message = announce(choose(1, own, clock), 1)
                .with("sequence", sequence)
                .with("domain", choose(0, 1, 0))
                .with("flags", choose(2, 0x0100, 0))
                .with("steps", choose(3, 255, 0));
            hall.now = choose(4, 999, 1_000);
            let count = choose(5, 4, 5);
            hall.say(&format!("lend {count}"));
            hall.receive(0, &message.octets());
        }
    }
    hall.now = 1_000;
    lends(&mut hall);
    hall.close()
}

/// A table not of five, before everything but the 3 of a Delay_Req and reading's own numbers.
fn lends(hall: &mut Hall) {
    let request = hex(&Message::blank(DELAY_REQ).octets());
    let sender = hex(&announce(0x200, 1).with("sequence", 50).octets());
    for count in [0, 1, 4, 6, 8, 5] {
        hall.say(&format!("lend {count}"));
        hall.say("receive 1000 0 0 00");
        hall.say("receive 0 0 1000000000 -");
        hall.say(&format!("receive 1000 0 0 {request}"));
        hall.say(&format!("receive 0 0 0 {request}"));
        hall.say(&format!("receive 0 0 0 {sender}"));
        hall.say("time 0");
        hall.say("time 1000");
        hall.say("request 0 58");
        hall.say("sent 0 0 0 1000000000");
        hall.say("show");
    }
}

/// Two senders that differ in one key, with all keys behind it the other way round.
fn comparisons(mut desk: Desk) -> Desk {
    desk.note("masters: each key of the comparison");
    let names = ["p1", "class", "accuracy", "variance", "p2", "grandmaster"];
    for (place, name) in names.iter().enumerate() {
        for (small, large) in [(0, 1), (127, 128), (254, 255)] {
            let (mut better, mut worse) = (announce(0x51, 9), announce(0x50, 1));
            for behind in &names[place + 1..] {
                better = better.with(behind, 0xf0);
                worse = worse.with(behind, 0x10);
            }
            better = better.with(name, small).with("steps", 9);
            worse = worse.with(name, large);
            if *name == "variance" || *name == "grandmaster" {
                better = better.with(name, 0x7f00 + small);
                worse = worse.with(name, 0x7f00 + 128 * large);
            }
            desk = pair(desk, &better, &worse);
        }
    }
    let one = announce(0x51, 9).with("grandmaster", 0x77);
    let high = 1 << 63;
    let sender =
        |clock: i128, port: i128| announce(clock, port).with("grandmaster", 0x77).with("steps", 1);
    desk = pair(desk, &one, &sender(0x40, 1).with("p1", 0));
    desk = pair(desk, &sender(0x40, 9), &sender(0x41, 1).with("p1", 0));
    desk = pair(desk, &sender(0x40, 1), &sender(0x40, 2));
    desk = pair(desk, &sender(0x40, 0x7fff), &sender(0x40, 0x8000));
    desk = pair(desk, &sender(0x40, 0xffff), &sender(high, 0));
    pair(desk, &announce(high - 1, 1), &announce(high, 1))
}

/// Both orders of the table.
fn pair(mut desk: Desk, one: &Message, other: &Message) -> Desk {
    for order in [[one, other], [other, one]] {
        let mut hall = Hall::open(desk, bench());
        for _ in 0..2 {
            order.iter().for_each(|message| drop(hall.announce(message)));
        }
        hall.show();
        desk = hall.close();
    }
    desk
}

/// New, lost and kept masters, each with a window that a wipe would empty.
fn changes(desk: Desk) -> Desk {
    let settings = Settings { minimum: 2, holdoff: 0, ..bench() };
    let mut hall = Hall::open(desk, settings);
    hall.note("masters: which change wipes");
    let good = announce(MASTER, 1);
    let better = announce(0x30, 1).with("p1", 1);
    let same = good.clone().with("grandmaster", 0x99).with("p1", 3);
    for message in [&good, &good, &same, &good, &better, &better, &good, &better] {
        hall.tick(1_000_000_000, 5);
        hall.tick(2_000_000_000, 1_000_000_005);
        hall.announce(message);
        hall.say("line");
        hall.now += 100;
    }
    hall.now += 3 * hall.settings.interval();
    hall.time();
    hall.say("line");
    hall.now += 1_000;
    hall.time();
    hall.time();
    hall.show();
    hall.close()
}

/// Seven senders with few different values, so that ties, deaths and returns are common.
fn crowd(desk: Desk, calls: usize) -> Desk {
    let mut dice = Dice::new(3);
    let mut hall = Hall::open(desk, with_interval(0));
    hall.note("masters: a crowd");
    let end = hall.desk.calls() + calls;
    while hall.desk.calls() < end {
        let port = if dice.once_in(8) { 2 } else { 1 };
        let message = announce(dice.between(1, 7), port)
            .with("sequence", dice.between(0, 5))
            .with("grandmaster", dice.between(1, 3))
            .with("p1", dice.between(1, 3))
            .with("class", dice.between(1, 2))
            .with("steps", dice.between(0, 2));
        hall.receive(0, &message.octets());
        hall.now +=
            *dice.pick(&[0, 0, 0, 0, 0, 0, 1, 50, 100, 200, 300, 999, 1_000, 1_001, 3_000, 4_001]);
        if dice.once_in(4) {
            hall.time();
        }
        if dice.once_in(20) {
            hall.show();
        }
    }
    hall.close()
}
