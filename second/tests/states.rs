//! States that take many calls, each answer derived from the rules beside it.

use second::lists::desk::Desk;
use second::lists::hall::{announce, Hall, Leg, Trip, MASTER, ONE_STEP, SECOND, TWO_STEP};
use second::lists::settings;
use second::settings::Settings;

fn hall() -> Hall {
    Hall::with_master(Desk::default(), settings::exchange())
}

/// The value of one word `name=value` of an answer.
fn value(answer: &str, name: &str) -> String {
    let mut words = answer.split(' ');
    let start = format!("{name}=");
    words.find_map(|word| word.strip_prefix(&start)).unwrap_or_default().to_string()
}

/// The third HUGE makes faulty and wipes nothing (rule 7.16); the exchange is refused with 18 then,
/// and a reset ends it (rule 10.10).
#[test]
fn faulty_and_back() {
    let mut hall = hall();
    hall.measure(10_000, 250);
    assert_eq!(hall.measure(10_000, SECOND), "huge");
    assert_eq!(hall.measure(10_000, -SECOND), "huge");
    assert_eq!(hall.measure(10_000, SECOND), "huge faulty");
    let shown = hall.show();
    assert!(shown.starts_with("port=faulty servo=adjusting output=250 "));
    assert_eq!(value(&shown, "wipes"), "1");
    let trip = hall.trip(10_500, 10_000);
    for leg in TWO_STEP {
        assert_eq!(hall.leg(leg, &trip), "refused 18");
    }
    assert_eq!(hall.tick(0, 0), "taken valid");
    let better = announce(0x30, 1).with("p1", 1);
    hall.announce(&better);
    assert_eq!(hall.announce(&better), "chosen 0000000000000030-1 wiped");
    let shown = hall.show();
    assert!(shown.starts_with("port=faulty servo=adjusting output=0 "));
    assert_eq!(value(&shown, "wipes"), "2");
    assert_eq!(hall.reset(), "wiped");
    assert!(hall.show().starts_with("port=uncalibrated "));
}

/// 999,999,999 is no HUGE but a STEP; the wipe begins the row anew.
#[test]
fn a_row_is_broken_by_every_other_ending() {
    let mut hall = hall();
    let others: [(i128, i128, &str); 4] = [
        (-1, 0, "neg"),
        (20_000_000, -1, "long"),
        (10_000, 10_000, "measured"),
        (1_000_009_998, -999_989_998, "step offset=999999998 wiped"),
    ];
    for (forward, back, answer) in others {
        assert_eq!(hall.measure(10_000, 2 * SECOND), "huge");
        assert_eq!(hall.measure(10_000, 2 * SECOND), "huge");
        assert!(hall.exchange(forward, back).starts_with(answer), "{answer}");
    }
    assert!(hall.show().starts_with("port=uncalibrated "));
}

/// PATH, and its third (rule 7.17).
#[test]
fn a_third_path_wipes() {
    let mut hall = hall();
    hall.measure(10_000, 0);
    assert!(hall.measure(1_009_999, 0).starts_with("measured delay=1009999 used=10000 "));
    assert_eq!(hall.measure(2_009_999, 0), "path");
    assert_eq!(hall.measure(9_999, 0), "path");
    assert_eq!(hall.measure(2_009_999, SECOND), "huge");
    assert_eq!(hall.measure(2_009_999, 0), "path");
    assert_eq!(hall.measure(2_009_999, 0), "path");
    assert_eq!(hall.measure(2_009_999, 0), "path wiped");
    // After the wipe there is no accepted delay to be far from, and none to be filtered by.
    assert!(hall.measure(2_009_999, 0).starts_with("measured delay=2009999 used=2009999 "));
}

/// HOLDOVER begins a millisecond after ten seconds (rule 6.2).
#[test]
fn holdover_begins_after_ten_seconds() {
    let mut hall = hall();
    hall.now += 20_000;
    hall.time();
    assert!(hall.show().starts_with("port=uncalibrated servo=adjusting "));
    (0..10).for_each(|_| drop(hall.measure(10_000, 5)));
    assert!(hall.show().starts_with("port=slave servo=tracking "));
    hall.now += 10_000;
    hall.time();
    assert!(hall.show().starts_with("port=slave servo=tracking "));
    hall.now += 1;
    hall.time();
    assert!(hall.show().starts_with("port=slave servo=holdover "));
    hall.exchange(-1, 0);
    assert!(hall.show().starts_with("port=slave servo=holdover "));
    hall.measure(10_000, 5);
    assert!(hall.show().starts_with("port=slave servo=tracking "));
}

/// What each leg of an exchange is answered in each state: rows of (leg, answer).
#[test]
fn partners_have_to_be_held() {
    let mut hall = hall();
    let trip = hall.trip(10_500, 10_000);
    for leg in [Leg::FollowUp, Leg::Sent, Leg::Response] {
        assert_eq!(hall.leg(leg, &trip), "refused 17");
    }
    assert_eq!(hall.leg(Leg::Sync, &trip), "held");
    assert_eq!(hall.leg(Leg::Response, &trip), "refused 17");
    assert!(hall.leg(Leg::Request, &trip).starts_with("asked sequence=0 "));
    assert_eq!(hall.leg(Leg::Response, &trip), "refused 17");
    assert_eq!(hall.leg(Leg::Sent, &trip), "stamped");
    assert_eq!(hall.leg(Leg::Sent, &trip), "refused 17");
    assert_eq!(hall.leg(Leg::Response, &trip), "refused 17");
    assert_eq!(hall.leg(Leg::FollowUp, &trip), "paired");
    assert_eq!(hall.leg(Leg::FollowUp, &trip), "refused 17");
    assert!(hall.leg(Leg::Response, &trip).starts_with("measured delay=10250 "));
    assert_eq!(hall.leg(Leg::Response, &trip), "refused 17");
    assert_eq!(hall.leg(Leg::FollowUp, &trip), "refused 17");
    let one = Trip { two_step: false, asked: hall.next, ..hall.trip(10_500, 10_000) };
    assert_eq!(hall.leg(Leg::Sync, &one), "held");
    assert_eq!(hall.leg(Leg::FollowUp, &one), "refused 17");
    assert!(hall.go(&ONE_STEP[1..], &one).starts_with("measured delay=10250 "));
}

/// Corrections of -1/65,536 ns are cut to -1 ns each: forward gains 2 ns and back 1 ns, so the
/// sum is 20,503, the delay 10,252 (half to even of 10,251.5) and the offset 10,502 - 10,252.
#[test]
fn each_correction_is_cut_by_itself() {
    let mut hall = hall();
    let mut trip = hall.trip(10_500, 10_000);
    (trip.sync_correction, trip.follow_correction, trip.response_correction) = (-1, -1, -1);
    assert!(hall.go(&TWO_STEP, &trip).starts_with("measured delay=10252 used=10252 offset=250 "));
}

/// t2 - t1 and t4 - t3 over all 48 bits: the forward way is 2^48 - 1 s too long, the way back as
/// much too short, and the sum is 20,000.
#[test]
fn stamps_at_both_ends_meet() {
    let mut hall = hall();
    let last = ((1 << 48) - 1) * SECOND;
    let trip = hall.trip(0, 0);
    let trip = Trip { t1: 0, t2: last, t3: last, t4: 20_000, ..trip };
    assert_eq!(hall.go(&TWO_STEP, &trip), "huge");
    hall.reset();
    let trip = Trip { t1: last + SECOND - 1, t2: 0, t3: 0, t4: last, asked: hall.next, ..trip };
    // Sum 1 - 1,000,000,000.
    assert_eq!(hall.go(&TWO_STEP, &trip), "neg");
}

/// Five live senders and a sixth; a place is free one millisecond past 4 intervals.
#[test]
fn a_sixth_sender() {
    let mut hall = Hall::open(Desk::default(), settings::bench());
    for clock in 1..=5 {
        assert_eq!(hall.announce(&announce(clock, 1)), "chosen none");
    }
    assert_eq!(hall.announce(&announce(6, 1)), "refused 15");
    hall.now += 8_000;
    assert_eq!(hall.announce(&announce(6, 1)), "refused 15");
    hall.now += 1;
    assert_eq!(hall.announce(&announce(6, 1)), "chosen none");
    assert_eq!(hall.announce(&announce(6, 1)), "chosen 0000000000000006-1 wiped");
}

/// A sender that was silent for over 4 intervals is new: one arrival, not qualified, and its last
/// sequenceId is forgotten.
#[test]
fn a_sender_that_returns_is_new() {
    let mut hall = Hall::with_master(Desk::default(), settings::bench());
    assert_eq!(hall.repeat(), "refused 14");
    hall.now += 8_001;
    assert_eq!(hall.repeat(), "chosen none wiped");
    assert_eq!(hall.repeat(), "refused 14");
    assert_eq!(hall.announce(&announce(MASTER, 1)), "chosen 020000fffe000001-1 wiped");
    // Another grandmaster behind the same sender is no new master.
    let same = announce(MASTER, 1).with("grandmaster", 5);
    assert_eq!(hall.announce(&same), "chosen 020000fffe000001-1");
}

/// Every cause of a wipe empties the window: no line is due after it, and the count is up by one.
#[test]
fn every_wipe_empties_the_window() {
    type Cause = fn(&mut Hall);
    let causes: [Cause; 8] = [
        |hall| drop(hall.reset()),
        |hall| drop(hall.measure(10_000, 100_000_001)),
        |hall| {
            hall.measure(10_000, 1);
            (0..3).for_each(|_| drop(hall.measure(5_000_000, 1)));
        },
        |hall| {
            let trip = hall.trip(10_500, 10_000);
            hall.leg(Leg::Sync, &trip);
            hall.leg(Leg::Sync, &Trip { t2: trip.t2 - 1, ..trip });
        },
        |hall| drop(hall.tick(3 * SECOND, 3 * SECOND)),
        |hall| drop(hall.tick(4 * SECOND, 5 * SECOND)),
        |hall| drop(hall.tick(4 * SECOND, 4 * SECOND + 2_000_001)),
        |hall| {
            hall.now += 3 * hall.settings.interval() + 1;
            hall.time();
        },
    ];
    for cause in causes {
        let settings = Settings { announce: 4, ..settings::watch() };
        let mut hall = Hall::with_master(Desk::default(), settings);
        (1..=3).for_each(|second| drop(hall.tick(second * SECOND, second * SECOND)));
        assert!(hall.say("line").ends_with(" n=3 wipes=1 ppm=0000000000000000"));
        cause(&mut hall);
        assert_eq!(hall.say("line"), "refused 21");
        assert_eq!(value(&hall.show(), "wipes"), "2");
        assert_eq!(value(&hall.show(), "output"), "0");
    }
}
