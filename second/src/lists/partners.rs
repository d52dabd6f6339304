//! Partners and refusals of the list `exchange`: what is not held, goes back or is refused.

use super::desk::Desk;
use super::exchange::fresh;
use super::hall::{announce, Hall, Leg, Trip, MASTER, SECOND, TWO_STEP};
use super::settings;
use crate::message::Message;
use crate::settings::Settings;
use crate::text::hex;

pub fn write(mut desk: Desk) -> Desk {
    desk = backs(desk);
    desk = matches(desk);
    desk = refusals(desk);
    desk = nows(desk);
    requests(desk)
}

/// Local stamps that go back, by a nanosecond and by more, in t2 and in t3.
fn backs(desk: Desk) -> Desk {
    let mut hall = fresh(desk, 700, 300);
    hall.note("exchange: local stamps that go back");
    for change in [0, -1, 1, -SECOND, -hall.local] {
        let first = hall.trip(10_500, 10_000);
        for leg in [Leg::Sync, Leg::Sent] {
            for held in [&TWO_STEP[..1], &TWO_STEP[..3], &TWO_STEP[..4], &TWO_STEP[..]] {
                let first = Trip { asked: hall.next, ..first };
                hall.go(held, &first);
                let last = if held.len() > 3 { first.t3 } else { first.t2 };
                let again = Trip {
                    t2: (last + change).max(0),
                    t3: (last + change).max(0),
                    asked: hall.next,
                    ..first
                };
                if leg == Leg::Sent {
                    hall.leg(Leg::Request, &again);
                }
                hall.leg(leg, &again);
                hall.show();
                hall.reset();
            }
        }
    }
    hall.close()
}

/// Partners that are not held: other sequenceIds, other requesters, replaced halves.
fn matches(desk: Desk) -> Desk {
    let mut hall = fresh(desk, 700, 300);
    hall.note("exchange: partners that are not held");
    for wrong in [1, -1, 32_768, 256] {
        let trip = hall.trip(10_500, 10_000);
        let other = Trip {
            sequence: (trip.sequence + wrong).rem_euclid(65_536),
            asked: (trip.asked + wrong).rem_euclid(65_536),
            ..trip
        };
        for leg in TWO_STEP {
            if leg != Leg::Sync && leg != Leg::Request {
                hall.leg(leg, &other);
            }
            hall.leg(leg, &trip);
        }
    }
    let (clock, port) = (hall.settings.clock, hall.settings.port);
    for (clock, port) in [(clock, port + 1), (clock + 1, port), (0, 0), (MASTER, 1), (clock, port)]
    {
        let trip = hall.trip(10_500, 10_000);
        hall.go(&TWO_STEP[..4], &trip);
        let message = hall.message(Leg::Response, &trip);
        let message = message.with("requesting clock", clock).with("requesting port", port);
        hall.receive(0, &message.octets());
        hall.leg(Leg::Response, &trip);
    }
    replaced(&mut hall);
    hall.close()
}

/// A newer Sync or request takes the place of the one held, the same sequenceId too.
fn replaced(hall: &mut Hall) {
    let first = hall.trip(10_500, 10_000);
    let same = Trip { sequence: first.sequence, ..hall.trip(12_000, 9_000) };
    hall.go(&TWO_STEP[..2], &first);
    hall.leg(Leg::Sync, &same);
    hall.go(&TWO_STEP[2..4], &same);
    hall.leg(Leg::Response, &same);
    hall.leg(Leg::FollowUp, &first);
    hall.leg(Leg::FollowUp, &same);
    hall.leg(Leg::Response, &same);
    let old = hall.trip(10_500, 10_000);
    hall.go(&TWO_STEP[..4], &old);
    hall.leg(Leg::Request, &old);
    hall.leg(Leg::Response, &old);
    hall.leg(Leg::Sent, &old);
    let new = Trip { asked: (old.asked + 1) % 65_536, ..old };
    hall.leg(Leg::Response, &new);
    hall.leg(Leg::Sent, &new);
    hall.leg(Leg::Response, &new);
    hall.leg(Leg::Response, &new);
}

/// Every set of 5, 8, 9, 10, 16, 19 and 17 at once, on a good unit and on a faulty one.
fn refusals(desk: Desk) -> Desk {
    let mut hall = fresh(desk, 700, 300);
    hall.note("exchange: several refusals hold at once");
    hall.measure(10_000, 5);
    for faulty in [false, true] {
        if faulty {
            (0..3).for_each(|_| drop(hall.measure(10_000, 5 * SECOND)));
        }
        for set in 0..64 {
            for leg in [Leg::Sync, Leg::FollowUp, Leg::Response] {
                refused(&mut hall, leg, set);
            }
        }
        hall.say("lend 5");
        sent_refusals(&mut hall, !faulty);
        hall.show();
    }
    let settings = settings::exchange();
    let mut hall = Hall::open(hall.close(), settings);
    hall.note("exchange: no master at all");
    hall.now = 0;
    let trip = hall.trip(10_500, 10_000);
    hall.go(&TWO_STEP, &trip);
    sent_refusals(&mut hall, true);
    hall.announce(&announce(MASTER, 1));
    hall.go(&TWO_STEP, &trip);
    hall.close()
}

fn refused(hall: &mut Hall, leg: Leg, set: u32) {
    let wrong = |bit: u32| set >> bit & 1 == 1;
    let trip = hall.trip(10_500, 10_000);
    if !wrong(5) && leg == Leg::FollowUp {
        hall.leg(Leg::Sync, &trip);
    }
    if !wrong(5) && leg == Leg::Response {
        hall.go(&TWO_STEP[..4], &trip);
    }
    let mut message = hall.message(leg, &trip);
    if wrong(0) {
        message = message.with("domain", 9);
    }
    if wrong(1) {
        message = message.with("port", 2);
    }
    if wrong(2) {
        message = message.with("correction", 65_536_000_000_000);
    }
    let now = if wrong(3) { hall.now - 1 } else { hall.now };
    let nanos = if wrong(4) { 1_000_000_000 } else { 0 };
    let count = if set % 8 == 7 { 6 } else { 5 };
    hall.say(&format!("lend {count}"));
    let (seconds, octets) = (trip.t2 / SECOND, hex(&message.octets()));
    hall.say(&format!("receive {now} {seconds} {nanos} {octets}"));
    hall.say("lend 5");
}

/// `sent` and a Sync's stamp at the edges of 5, and `sent`'s 5, 9, 18, 16, 17 in order. Each is
/// followed by a reset where that is wanted.
fn sent_refusals(hall: &mut Hall, reset: bool) {
    let (now, seconds) = (hall.now, hall.local / SECOND + 1);
    let sync = hex(&message_of(hall, Leg::Sync).octets());
    for (seconds, nanos) in [
        (seconds, 999_999_999),
        (seconds, 1_000_000_000),
        (seconds, 4_294_967_295_i128),
        ((1 << 48) - 1, 1_000_000_000),
        (1 << 48, 0),
        ((1 << 64) - 1, 999_999_999),
        ((1 << 48) - 1, 999_999_999),
    ] {
        for now in [(now - 1).max(0), now] {
            hall.say(&format!("sent {now} {} {seconds} {nanos}", hall.next));
            hall.say(&format!("receive {now} {seconds} {nanos} {sync}"));
        }
        hall.request(58);
        hall.say(&format!("sent {now} {} {seconds} {nanos}", (hall.next + 65_535) % 65_536));
        if reset {
            hall.reset();
        }
    }
}

fn message_of(hall: &mut Hall, leg: Leg) -> Message {
    let trip = hall.trip(10_500, 10_000);
    hall.message(leg, &trip)
}

/// Every call that is not refused sets now, whatever it ends in; a refused one does not.
fn nows(desk: Desk) -> Desk {
    let mut hall = fresh(desk, 700, 300);
    hall.note("exchange: what sets now");
    for (forward, back) in [
        (10_500, 10_000),
        (-1, 0),
        (20_000_000, 0),
        (3 * SECOND, -3 * SECOND),
        (5_000_000, 5_000_000),
        (200_000_000, -200_000_000),
    ] {
        let trip = hall.trip(forward, back);
        for leg in TWO_STEP {
            hall.now += 10;
            hall.leg(leg, &trip);
            hall.show();
            hall.now += 10;
            hall.leg(Leg::FollowUp, &trip);
            hall.show();
            hall.now -= 10;
        }
        hall.now += 10;
        let early = Trip { t2: 0, ..trip };
        hall.leg(Leg::Sync, &early);
        hall.show();
        hall.measure(10_000, 5);
    }
    hall.close()
}

/// Rooms of the lent frame, with an own identity and a domain of all ones.
fn requests(desk: Desk) -> Desk {
    let mut hall = Hall::with_master(
        desk,
        Settings { domain: 255, clock: u64::MAX as i128, port: 65_535, ..settings::exchange() },
    );
    hall.note("exchange: rooms of a request");
    for length in [0, 1, 13, 14, 15, 44, 56, 57, 58, 59, 60, 64, 100, 1_500, 2_000] {
        hall.request(length);
        hall.show();
    }
    hall.say("request 1000 2001");
    hall.say("request 999 57");
    hall.say("request 999 58");
    hall.exchange(10_500, 10_000);
    hall.close()
}
