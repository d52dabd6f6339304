//! The list `exchange`: orders of the legs, stamps, verdicts, refusals; then the servo's part.

use super::desk::Desk;
use super::hall::{Hall, Leg, Trip, ONE_STEP, TWO_STEP};
use super::settings;
use super::{partners, servo, stamps, verdicts};
use crate::settings::Settings;

pub fn list() -> Vec<u8> {
    let mut desk = numbers(Desk::default());
    desk = orders(desk);
    desk = stamps::write(desk);
    desk = verdicts::write(desk);
    desk = partners::write(desk);
    desk = servo::write(desk);
    desk.text()
}

/// A fresh unit with these gains that has chosen its master.
pub fn fresh(desk: Desk, kp: i128, ki: i128) -> Hall {
    let settings = Settings { kp, ki, ..settings::exchange() };
    Hall::with_master(desk, settings)
}

/// P1 to P10, rules 11.1 to 11.10.
fn numbers(mut desk: Desk) -> Desk {
    desk.note("exchange: P1 to P10");
    let runs: [&[(i128, i128)]; 9] = [
        &[(10_500, 10_000)],
        &[(10_501, 10_000)],
        &[(10_503, 10_000)],
        &[(-1, 0)],
        &[(9_999_999, 9_999_999), (9_999_999, 10_000_000)],
        &[(10_000, 10_000), (15_000, 15_000), (15_000, 15_000)],
        &[(10_250, 9_750), (10_250, 9_750)],
        &[(60_000, -40_000)],
        &[(100_010_000, -99_990_000)],
    ];
    for run in runs {
        let mut hall = fresh(desk, 700, 300);
        for (forward, back) in run {
            hall.exchange(*forward, *back);
        }
        hall.show();
        desk = hall.close();
    }
    for offset in [1, 3] {
        let mut hall = fresh(desk, 490, 10);
        hall.measure(10_000, offset);
        desk = hall.close();
    }
    desk
}

/// All orders of some of these legs, none of them twice.
fn arrangements(legs: &[Leg]) -> Vec<Vec<Leg>> {
    let mut all = vec![vec![]];
    for leg in legs {
        let rest: Vec<Leg> = legs.iter().copied().filter(|other| other != leg).collect();
        for mut behind in arrangements(&rest) {
            behind.insert(0, *leg);
            all.push(behind);
        }
    }
    all
}

/// All orders of all of these legs.
fn permutations(legs: &[Leg]) -> Vec<Vec<Leg>> {
    let all = arrangements(legs).into_iter();
    all.filter(|order| order.len() == legs.len()).collect()
}

/// A list with one of its legs a second time, at every later place.
fn doublings(order: &[Leg]) -> Vec<Vec<Leg>> {
    let mut all = Vec::new();
    for (place, leg) in order.iter().enumerate() {
        for later in place + 1..=order.len() {
            let mut doubled = order.to_vec();
            doubled.insert(later, *leg);
            all.push(doubled);
        }
    }
    all
}

/// Permutations, losses and doublings of a two-step and of a one-step exchange.
fn orders(desk: Desk) -> Desk {
    let mut hall = fresh(desk, 700, 300);
    hall.note("exchange: every order and every loss of two steps");
    for order in arrangements(&TWO_STEP) {
        travel(&mut hall, &order, true);
    }
    hall.note("exchange: two steps in order, each leg twice");
    for order in doublings(&TWO_STEP) {
        travel(&mut hall, &order, true);
    }
    hall.note("exchange: every order of two steps with one leg twice at once");
    for order in permutations(&TWO_STEP) {
        for place in 0..order.len() {
            let mut doubled = order.clone();
            doubled.insert(place, order[place]);
            travel(&mut hall, &doubled, true);
        }
    }
    hall.note("exchange: every order, loss and doubling of one step");
    for order in arrangements(&ONE_STEP) {
        travel(&mut hall, &order, false);
        if order.len() == 4 {
            for doubled in doublings(&order) {
                travel(&mut hall, &doubled, false);
            }
        }
    }
    hall.note("exchange: one step, with a Follow_Up that nobody waits for");
    for order in doublings(&TWO_STEP) {
        travel(&mut hall, &order, false);
    }
    hall.close()
}

/// Goes a trip in this order. The Delay_Resp comes once more, so that what is held at last shows.
fn travel(hall: &mut Hall, order: &[Leg], two_step: bool) {
    let trip = Trip { two_step, ..hall.trip(10_500, 10_000) };
    hall.go(order, &trip);
    hall.leg(Leg::Response, &trip);
    hall.reset();
}
