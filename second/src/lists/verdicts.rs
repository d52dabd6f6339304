//! Verdicts of the list `exchange`: each edge, rows of them, and the delay used.

use super::desk::Desk;
use super::exchange::fresh;
use super::hall::{Hall, Leg, Trip, SECOND, TWO_STEP};

pub fn write(mut desk: Desk) -> Desk {
    desk = sums(desk);
    desk = offsets(desk);
    desk = paths(desk);
    desk = rows(desk);
    desk = spent(desk);
    filter(desk)
}

/// NEG and LONG at their edges, also where HUGE or STEP would hold.
fn sums(desk: Desk) -> Desk {
    let mut hall = fresh(desk, 700, 300);
    hall.note("exchange: NEG and LONG");
    for sum in (-2..=5).chain(19_999_996..=20_000_000) {
        for forward in [0, sum, sum + 77, 2 * SECOND, -2 * SECOND] {
            hall.exchange(forward, sum - forward);
            hall.reset();
        }
    }
    hall.close()
}

/// STEP and HUGE at their edges.
fn offsets(desk: Desk) -> Desk {
    let mut hall = fresh(desk, 700, 300);
    hall.note("exchange: STEP and HUGE");
    for edge in [100_000_000, SECOND] {
        for offset in [edge - 1, edge, edge + 1, 1 - edge, -edge, -edge - 1] {
            hall.measure(10_000, offset);
            hall.show();
            hall.reset();
            // With an odd sum both are judged on the rounded delay.
            for odd in [10_001, 10_003] {
                hall.exchange(odd + offset, 10_000 - offset);
                hall.reset();
            }
        }
    }
    hall.close()
}

/// PATH at its edge, where HUGE or STEP would hold too.
fn paths(desk: Desk) -> Desk {
    let mut hall = fresh(desk, 700, 300);
    hall.note("exchange: PATH");
    for delay in [0, 1_000, 3_000_000] {
        for change in [999_999, 1_000_000, 1_000_001, -999_999, -1_000_000, -1_000_001] {
            let other = delay + change;
            if other >= 0 {
                hall.measure(delay, 5);
                for offset in [5, 2 * SECOND, 200_000_000] {
                    hall.measure(other, offset);
                }
                hall.show();
                hall.reset();
            }
        }
    }
    hall.close()
}

/// A measurement that ends in the wanted way, given accepted delays around 2,000,000.
fn ending(hall: &mut Hall, end: char) -> String {
    match end {
        'n' => hall.exchange(-1, 0),
        'l' => hall.exchange(10_000_000, 10_000_000),
        'h' => hall.measure(2_000_000, 3 * SECOND),
        'H' => hall.measure(9_000_000, -3 * SECOND),
        'p' => hall.measure(5_000_000, 7),
        's' => hall.measure(2_000_000, 150_000_000),
        _ => hall.measure(2_000_000, 7),
    }
}

/// Rows of HUGE and PATH, unbroken and broken by every other ending.
fn rows(desk: Desk) -> Desk {
    let mut hall = fresh(desk, 700, 300);
    hall.note("exchange: rows of HUGE and PATH");
    let rows = "ahhh ahhahhh ahhnhhh ahhlhhh ahhphhh ahhshhh ahHhaa appp appappp appnppp applppp \
                apphppp appsppp apappapp hphphphp pppp hhh nnnnllll ahphphhpp aaHHHa apppappp \
                ahnhlhahphsh apnplpapphpsp";
    for row in rows.split(' ') {
        for end in row.chars() {
            ending(&mut hall, end);
        }
        hall.show();
        hall.request(58);
        hall.reset();
        hall.show();
    }
    hall.close()
}

/// Whatever the ending, both halves are spent and the last local stamp stays.
fn spent(desk: Desk) -> Desk {
    let mut hall = fresh(desk, 700, 300);
    hall.note("exchange: halves are spent whatever the ending");
    for (forward, back) in [
        (-1, 0),
        (20_000_000, 0),
        (3 * SECOND, -3 * SECOND),
        (5_000_000, 5_000_000),
        (5_000, 5_000),
    ] {
        hall.measure(2_000, 7);
        let trip = hall.trip(forward, back);
        hall.go(&TWO_STEP, &trip);
        for leg in [Leg::Response, Leg::FollowUp, Leg::Sent, Leg::Response] {
            hall.leg(leg, &trip);
        }
        hall.show();
        let early = Trip { t2: trip.t3 - 1, ..trip };
        hall.leg(Leg::Sync, &early);
        hall.show();
    }
    hall.close()
}

/// The delay used: within 1,000 of the one used last, else the median of up to five.
fn filter(desk: Desk) -> Desk {
    let mut hall = fresh(desk, 700, 300);
    hall.note("exchange: the filter");
    let runs: [&[i128]; 12] = [
        // The delay last accepted is not the delay last used: PATH asks for the first.
        &[1_000_000, 1_900_000, 900_001, 1_900_000, 900_000],
        &[1_000_000, 1_900_000, 2_100_000, 3_099_999, 4_099_999],
        &[10_000, 11_000, 12_001, 13_001],
        &[10_000, 9_000, 7_999, 6_999],
        &[10_000, 11_001, 11_001, 11_001],
        &[10_000, 15_000, 15_000, 15_000, 10_000, 10_000, 10_000, 12_000],
        &[5, 4_000, 3_000, 2_000, 9_000, 8_000, 7_000, 6_000, 100_000, 1],
        &[1, 2_000, 2, 2_001, 3, 2_002, 4, 2_003, 5, 2_004],
        &[9_999_999, 9_000_000, 9_500_000, 9_200_000, 9_700_000, 9_900_000],
        &[0, 999_999, 0, 999_999, 999_999, 999_999, 1_999_998],
        &[100_000, 200_000, 300_000, 400_000, 500_000, 600_000, 700_000, 650_000, 10_000],
        &[700_000, 600_000, 500_000, 400_000, 300_000, 200_000, 100_000, 150_000, 900_000],
    ];
    for run in runs {
        for delay in run {
            hall.measure(*delay, 10);
        }
        hall.reset();
    }
    hall.note("exchange: a STEP of the filter's making leaves nothing behind");
    hall.measure(10_000, 99_999_000);
    hall.measure(900_000, 99_999_000);
    hall.measure(10_000, 5);
    hall.show();
    hall.close()
}
