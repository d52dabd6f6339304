//! Stamps and corrections of the list `exchange`: both ends, every borrow, every cut.

use super::desk::Desk;
use super::exchange::fresh;
use super::hall::{Hall, Trip, SECOND, TWO_STEP};

/// The last second that a stamp can hold, in ns.
const LAST: i128 = ((1 << 48) - 1) * SECOND;

pub fn write(mut desk: Desk) -> Desk {
    desk = stamps(desk);
    desk = borrows(desk);
    corrections(desk)
}

/// A trip with these four stamps after a wipe, in two steps and in one.
fn stamped(hall: &mut Hall, stamps: [i128; 4]) {
    let [t1, t2, t3, t4] = stamps;
    for two_step in [true, false] {
        hall.reset();
        let trip = hall.trip(0, 0);
        let trip = Trip { two_step, t1, t2, t3, t4, ..trip };
        hall.go(trip.legs(), &trip);
    }
}

/// Stamps at 0 and at the last second of 48 bits.
fn stamps(desk: Desk) -> Desk {
    let mut hall = fresh(desk, 700, 300);
    hall.note("exchange: stamps at 0 and at 2^48 - 1 seconds");
    let ends = [0, 1, SECOND - 1, SECOND, LAST - 1, LAST, LAST + SECOND - 1];
    for t1 in ends {
        for t2 in ends {
            let distance = t2 - t1;
            // t4 so that the sum is 20,000, where the stamps allow it.
            for t3 in [t2, LAST] {
                let t4 = (t3 + 20_000 - distance).clamp(0, LAST + SECOND - 1);
                stamped(&mut hall, [t1, t2, t3, t4]);
            }
        }
    }
    hall.show();
    hall.close()
}

/// Differences that borrow from the seconds, across every power of two of seconds.
fn borrows(desk: Desk) -> Desk {
    let mut hall = fresh(desk, 700, 300);
    hall.note("exchange: differences across every borrow");
    for power in 0..48 {
        let edge = (1_i128 << power) * SECOND;
        let near = (edge - 5_000, edge + 5_000);
        stamped(&mut hall, [near.0, near.1, near.1, near.1 + 10_000]);
        stamped(&mut hall, [near.1, near.0, near.1, near.1 + 30_001]);
        stamped(&mut hall, [edge, edge, edge, edge]);
        stamped(&mut hall, [edge - 1, edge, edge + SECOND - 1, edge + SECOND]);
    }
    // t4 below t3: a fast slave meets such a t4, and it is no refusal.
    stamped(&mut hall, [SECOND, 2 * SECOND - 1, 2 * SECOND, SECOND + 20_001]);
    stamped(&mut hall, [5 * SECOND, 5 * SECOND + 50_000, 6 * SECOND, 6 * SECOND - 30_000]);
    hall.close()
}

/// Corrections cut down to whole ns, and their limit.
fn corrections(desk: Desk) -> Desk {
    let mut hall = fresh(desk, 700, 300);
    hall.note("exchange: corrections");
    let limit = 65_536_000_000_000;
    let near = [1, 65_535, 65_536, 65_537, 98_304, 6_553_600, limit - 1, limit, limit + 1];
    let mut values: Vec<i128> = near.iter().flat_map(|value| [*value, -value]).collect();
    values.extend([i64::MAX as i128, i64::MIN as i128]);
    for value in values {
        corrected(&mut hall, value);
    }
    three_corrections(&mut hall);
    hall.close()
}

/// One correction in each place where there can be one, made good by a stamp, so that only what
/// the cut leaves shows.
fn corrected(hall: &mut Hall, value: i128) {
    let good = value.div_euclid(65_536).clamp(-SECOND, SECOND);
    for place in 0..4 {
        let mut trip = hall.trip(10_500, 10_000);
        trip.two_step = place != 3;
        match place {
            1 => trip.follow_correction = value,
            2 => trip.response_correction = value,
            _ => trip.sync_correction = value,
        }
        match place {
            2 => trip.t4 += good,
            _ => trip.t1 -= good,
        }
        hall.go(trip.legs(), &trip);
        hall.reset();
    }
}

/// Each is cut by itself: three times one part of 65,536 below 0 is 3 ns.
fn three_corrections(hall: &mut Hall) {
    for (sync, follow, response) in
        [(-1, -1, -1), (65_535, 65_535, 65_535), (-1, 1, 0), (32_768, 32_768, 0)]
    {
        let trip = Trip {
            sync_correction: sync,
            follow_correction: follow,
            response_correction: response,
            ..hall.trip(10_500, 10_000)
        };
        hall.go(&TWO_STEP, &trip);
    }
}
