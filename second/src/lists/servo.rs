//! The servo's part of the list `exchange`: gains, limits, the ten offsets, what is shown.

use super::desk::Desk;
use super::hall::Hall;
use super::settings;
use crate::dice::Dice;
use crate::settings::Settings;

pub fn write(mut desk: Desk) -> Desk {
    desk = gains(desk);
    desk = limits(desk);
    desk = roundings(desk);
    desk = swings(desk);
    desk = halvings(desk);
    desk = tracking(desk);
    desk = holdover(desk);
    wandering(desk)
}

fn hall(desk: Desk, kp: i128, ki: i128, sync: i128, limit: i128) -> Hall {
    let settings = Settings { kp, ki, sync, limit, ..settings::exchange() };
    Hall::with_master(desk, settings)
}

/// Gains at their ends with every sync exponent.
fn gains(mut desk: Desk) -> Desk {
    desk.note("servo: gains and sync exponents");
    for sync in 0..=7 {
        for (kp, ki) in [(100, 10), (1_000, 500), (700, 300), (333, 77)] {
            let mut hall = hall(desk, kp, ki, sync, 100_000);
            for offset in [1, -1, 250, 250, -777, 12_345] {
                hall.measure(10_000, offset);
            }
            desk = hall.close();
        }
    }
    desk
}

/// I held within the limit before the output is made, and the output after.
fn limits(mut desk: Desk) -> Desk {
    desk.note("servo: limits");
    for limit in [1, 2, 999, 100_000] {
        let mut hall = hall(desk, 700, 300, 0, limit);
        for offset in
            [100_000_000, 100_000_000, -100_000_000, -100_000_000, -1, 1, 50_000, -50_000, 3, 2, 1]
        {
            hall.measure(10_000, offset);
        }
        let edge = limit * 1_000 / 700;
        for edge in [edge - 1, edge, edge + 1, limit, limit + 1] {
            for sign in [1, -1] {
                hall.reset();
                hall.measure(10_000, sign * edge);
                hall.measure(10_000, sign * edge);
            }
        }
        hall.show();
        desk = hall.close();
    }
    desk
}

/// Outputs that lie just on a half, above and below 0.
fn roundings(desk: Desk) -> Desk {
    let mut hall = hall(desk, 490, 10, 0, 100_000);
    hall.note("servo: halves go to the even one");
    for offset in -9..=9 {
        hall.measure(10_000, offset);
        hall.reset();
    }
    hall.close()
}

/// Ten offsets with 5, 6 and 9 changes of sign, with zeros between, and fewer than ten.
fn swings(desk: Desk) -> Desk {
    let mut hall = hall(desk, 700, 300, 0, 100_000);
    hall.note("servo: neighbours of opposite sign");
    let runs = "+-+-+-++++ +-+-+-+--- +-+-+-+-+- -+-+-+++++ -+-+-+-+++ +0-0+0-0+- +-+-+-0-+- \
                +-+-+-+0++ 0-+-+-+-++ 0+-+-+---- +-+-+-+-+ +++++++++-+-+-+-+-+- \
                +-+-+-+-+-+-+-+-+-+-+ ++--++--++--++-- 0000000000 +-+++-+++-+-++-+-+-+ \
                -0-0-0-0-0 +0+0+0+0+0 +0-0+0-0+0";
    for run in runs.split(' ') {
        for (place, sign) in run.chars().enumerate() {
            let size = 1 + place as i128;
            hall.measure(
                10_000,
                if sign == '0' {
                    0
                } else if sign == '+' {
                    size
                } else {
                    -size
                },
            );
        }
        hall.measure(10_000, 1_000);
        hall.show();
        hall.reset();
        hall.measure(10_000, 1_000);
        hall.reset();
    }
    hall.close()
}

/// Gains halved again and again until they are 1, and back by a wipe.
fn halvings(desk: Desk) -> Desk {
    let mut hall = hall(desk, 1_000, 500, 7, 100_000);
    hall.note("servo: gains halved down to 1");
    for place in 0..130 {
        let size = 1_000_000 + place;
        hall.measure(10_000, if place % 2 == 0 { size } else { -size });
    }
    hall.measure(10_000, 500_000);
    hall.reset();
    hall.measure(10_000, 500_000);
    hall.close()
}

/// Ten offsets at the edges of TRACKING.
fn tracking(desk: Desk) -> Desk {
    let mut hall = hall(desk, 700, 300, 0, 100_000);
    hall.note("servo: TRACKING at its edges");
    let runs: [[i128; 10]; 12] = [
        [0; 10],
        [99; 10],
        [-99; 10],
        [100; 10],
        [-100; 10],
        [23, 0, 0, 0, 0, 0, 0, 0, 0, 0],
        [24, 0, 0, 0, 0, 0, 0, 0, 0, 0],
        // Five of a and five of b: 25 (a - b)², 4,900 at 14 and 5,625 at 15.
        [14, 14, 14, 14, 14, 0, 0, 0, 0, 0],
        [15, 15, 15, 15, 15, 0, 0, 0, 0, 0],
        [99, 99, 99, 99, 99, 85, 85, 85, 85, 85],
        // 10 · 20² · 2 = 8,000 less 0; 10 · 15² · 2 + 10 · 5² · 2 = 5,000 less 0, not under it.
        [15, -15, 5, -5, 0, 0, 0, 0, 0, 0],
        [15, -15, 5, -4, 0, 0, 0, 0, 0, 0],
    ];
    for run in runs {
        for offset in run {
            hall.measure(10_000, offset);
        }
        hall.show();
        hall.measure(10_000, run[9]);
        hall.show();
        hall.reset();
        hall.show();
    }
    hall.note("servo: nine offsets are not ten, and an old one leaves");
    for offset in [5_000, 1, 1, 1, 1, 1, 1, 1, 1, 1, 1] {
        hall.measure(10_000, offset);
        hall.show();
    }
    hall.close()
}

/// HOLDOVER counts from the last accepted measurement; others don't renew it.
fn holdover(desk: Desk) -> Desk {
    let mut hall = hall(desk, 700, 300, 0, 100_000);
    hall.note("servo: HOLDOVER at its edge");
    hall.show();
    (0..10).for_each(|_| drop(hall.measure(10_000, 3)));
    for (later, kind) in [
        (10_000, ""),
        (1, "time"),
        (0, "neg"),
        (0, "good"),
        (9_999, "long"),
        (2, "time"),
        (0, "good"),
    ] {
        hall.now += later;
        match kind {
            "neg" => hall.exchange(-5, 0),
            "long" => hall.exchange(20_000_000, 0),
            "good" => hall.measure(10_000, 3),
            _ => hall.time(),
        };
        hall.show();
    }
    hall.now += 10_001;
    hall.time();
    hall.show();
    hall.reset();
    hall.show();
    hall.close()
}

/// Long runs of offsets that wander, with delays that do so too.
fn wandering(mut desk: Desk) -> Desk {
    desk.note("servo: wandering offsets and delays");
    let mut dice = Dice::new(5);
    for (sync, limit) in [(0, 100_000), (3, 5_000), (7, 40)] {
        let mut hall = hall(desk, 700, 300, sync, limit);
        let mut delay = 50_000;
        for _ in 0..60 {
            delay = (delay + dice.between(-2_500, 2_500)).max(0);
            let size = *dice.pick(&[3, 40, 2_000, 90_000]);
            hall.measure(delay, dice.between(-size, size));
            if dice.once_in(5) {
                hall.show();
            }
        }
        desk = hall.close();
    }
    desk
}
