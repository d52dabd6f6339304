//! The list `watch`: samples at every edge, every window with a bad sample at each place, lines.

use super::desk::Desk;
use super::hall::{Hall, SECOND};
use super::settings;
use crate::dice::Dice;
use crate::settings::Settings;

/// The last stamp that the watch takes.
const LAST: i128 = (1 << 62) - 1;

pub fn list() -> Vec<u8> {
    let mut desk = numbers(Desk::default());
    desk = windows(desk);
    desk = due(desk);
    desk = stamps(desk);
    desk = backs(desk);
    desk = intervals(desk);
    desk = steps(desk);
    desk = ranges(desk);
    desk = steep(desk);
    desk = runs(desk);
    desk.text()
}

/// A watch of its own: a reference that goes on and a y that is asked for.
struct Pulses {
    hall: Hall,
    reference: i128,
}

impl Pulses {
    fn new(desk: Desk, settings: Settings) -> Pulses {
        let hall = Hall::open(desk, settings);
        Pulses { hall, reference: 0 }
    }

    /// A pulse this long after the last one, with this y.
    fn after(&mut self, interval: i128, y: i128) -> String {
        self.reference += interval;
        self.hall.tick(self.reference, self.reference + y)
    }

    fn pulse(&mut self, y: i128) -> String {
        self.after(SECOND, y)
    }

    fn line(&mut self) -> String {
        self.hall.say("line")
    }

    /// Begins anew after a wipe, with y 0 at a round reference.
    fn reset(&mut self) {
        self.hall.reset();
        self.reference = 0;
    }
}

/// P11 and P12, rules 11.11 and 11.12.
fn numbers(desk: Desk) -> Desk {
    let mut pulses = Pulses::new(desk, settings::watch());
    pulses.hall.note("watch: P11 and P12");
    for y in [0, 50, 100] {
        pulses.pulse(y);
        pulses.line();
    }
    pulses.reset();
    for (interval, y) in [(SECOND, 0), (SECOND, 50), (1_003_000_000, 100), (SECOND, 150)] {
        pulses.after(interval, y);
        pulses.line();
    }
    pulses.hall.close()
}

/// One bad sample goes through every place of every window.
fn windows(mut desk: Desk) -> Desk {
    desk.note("watch: every window with a bad sample at each place");
    let mut dice = Dice::new(62);
    for window in 2..=128 {
        let settings = Settings { window, minimum: 2, ..settings::watch() };
        let mut pulses = Pulses::new(desk, settings);
        pulses.pulse(0);
        for _ in 0..window - 2 {
            pulses.pulse(dice.between(-500, 500));
        }
        pulses.after(SECOND + 2_000_001, dice.between(-500, 500));
        pulses.line();
        for _ in 0..window {
            pulses.pulse(dice.between(-500, 500));
            pulses.line();
        }
        desk = pulses.hall.close();
    }
    desk
}

/// Lines due at exactly the minimum and the holdoff, with good samples and with bad ones between.
fn due(mut desk: Desk) -> Desk {
    desk.note("watch: lines due at the minimum and the holdoff");
    for minimum in [2, 3, 7] {
        for holdoff in 0..=10 {
            let settings = Settings { window: 8, minimum, holdoff, ..settings::watch() };
            let mut pulses = Pulses::new(desk, settings);
            for place in 0..12 {
                let bad = holdoff % 3 == 1 && place % 4 == 1;
                let interval = if bad { SECOND - 2_000_001 } else { SECOND };
                pulses.line();
                pulses.after(interval, 10 * place);
            }
            pulses.line();
            desk = pulses.hall.close();
        }
    }
    desk
}

/// Stamps at 0 and at 2^62 - 1, and one past each.
fn stamps(desk: Desk) -> Desk {
    let mut hall = Hall::open(desk, settings::watch());
    hall.note("watch: stamps at their ends");
    let ends = [0, 1, LAST - 1, LAST, -1, LAST + 1, i64::MIN as i128, i64::MAX as i128];
    for reference in ends {
        for clock in ends {
            hall.tick(reference, clock);
            hall.tick(LAST, LAST);
            hall.tick(LAST, 0);
            hall.tick(0, LAST);
            hall.tick(SECOND, SECOND);
            hall.reset();
        }
    }
    hall.show();
    hall.close()
}

/// References that stand still or go back.
fn backs(desk: Desk) -> Desk {
    let mut pulses = Pulses::new(desk, settings::watch());
    pulses.hall.note("watch: references that stand still or go back");
    for interval in [1, 0, -1, -SECOND, 2, -2 * SECOND] {
        for count in [1, 2, 5] {
            pulses.reset();
            pulses.reference = 9 * SECOND;
            (0..count).for_each(|place| drop(pulses.pulse(3 * place)));
            pulses.after(interval, 3);
            pulses.line();
            (0..3).for_each(|place| drop(pulses.pulse(1_000 * place)));
            pulses.line();
        }
    }
    pulses.hall.close()
}

/// Intervals at the tolerance and one past it, on both sides.
fn intervals(mut desk: Desk) -> Desk {
    desk.note("watch: intervals at the tolerance and one past");
    for tolerance in [0, 1, 2_000_000, 100_000_000] {
        let settings = Settings { tolerance, ..settings::watch() };
        let mut pulses = Pulses::new(desk, settings);
        for change in [tolerance - 1, tolerance, tolerance + 1] {
            for sign in [1, -1] {
                pulses.pulse(5);
                pulses.after(SECOND + sign * change, 7);
                pulses.line();
            }
        }
        desk = pulses.hall.close();
    }
    desk
}

/// Steps of y at the spike and at the jump, after a good sample and after a bad one.
fn steps(mut desk: Desk) -> Desk {
    desk.note("watch: steps at the spike and at the jump");
    for (spike, jump) in
        [(1, 2), (1_000_000, 2_000_000), (999_999_998, 999_999_999), (5, 999_999_999)]
    {
        let settings = Settings { spike, jump, minimum: 2, ..settings::watch() };
        for step in [spike - 1, spike, spike + 1, jump - 1, jump, jump + 1] {
            for sign in [1, -1] {
                let mut pulses = Pulses::new(desk, settings.clone());
                pulses.pulse(0);
                pulses.pulse(sign * step);
                pulses.line();
                pulses.pulse(sign * step - sign * spike);
                pulses.pulse(0);
                pulses.line();
                pulses.pulse(-sign * step);
                pulses.line();
                desk = pulses.hall.close();
            }
        }
    }
    desk
}

/// y at 999,999,999 and at 1,000,000,000 either way, reached at once and by degrees.
fn ranges(mut desk: Desk) -> Desk {
    desk.note("watch: y at the ends of its range");
    let settings =
        Settings { spike: 999_999_998, jump: 999_999_999, minimum: 2, ..settings::watch() };
    for sign in [1, -1] {
        for end in [999_999_998, 999_999_999, 1_000_000_000, 1_000_000_001, 3_000_000_000] {
            for way in [0, 1, 600_000_000] {
                let mut pulses = Pulses::new(desk, settings.clone());
                pulses.reference = 40 * SECOND;
                pulses.pulse(0);
                pulses.pulse(sign * way);
                pulses.pulse(sign * end);
                pulses.line();
                pulses.pulse(sign * 1_000_000_000);
                pulses.line();
                desk = pulses.hall.close();
            }
        }
    }
    desk
}

/// The steepest lines that a full window can hold, and flat ones.
fn steep(mut desk: Desk) -> Desk {
    desk.note("watch: the steepest and the flattest lines");
    let settings = Settings {
        window: 128,
        minimum: 2,
        spike: 999_999_998,
        jump: 999_999_999,
        ..settings::watch()
    };
    for sign in [1, -1] {
        let mut pulses = Pulses::new(desk, settings.clone());
        pulses.reference = 40 * SECOND;
        for y in [0, 600_000_000, 999_999_999] {
            pulses.pulse(sign * y);
        }
        for place in 0..128 {
            pulses.pulse(sign * (999_999_999 - 15_748_031 * place));
        }
        pulses.line();
        for y in [-400_000_000, 599_999_998, 999_999_999] {
            pulses.pulse(sign * y);
            pulses.line();
        }
        (0..128).for_each(|_| drop(pulses.pulse(sign * 999_999_999)));
        pulses.line();
        desk = pulses.hall.close();
    }
    desk
}

/// Long runs of samples with a drift, noise, spikes, jumps and late pulses.
fn runs(mut desk: Desk) -> Desk {
    desk.note("watch: long runs");
    let mut dice = Dice::new(11);
    for window in [2, 3, 30, 120, 128] {
        let settings = Settings {
            window,
            minimum: 2 + (window - 2) / 4,
            holdoff: dice.between(0, 10),
            ..settings::watch()
        };
        let mut pulses = Pulses::new(desk, settings);
        let (mut y, drift) = (0, dice.between(-30_000, 30_000));
        for _ in 0..300 {
            let late =
                if dice.once_in(20) { 2_000_001 } else { dice.between(-2_000_000, 2_000_000) };
            let spike = if dice.once_in(20) { dice.between(-1_900_000, 1_900_000) } else { 0 };
            pulses.after(SECOND + late, y + spike);
            y += drift + dice.between(-20, 20);
            if dice.once_in(150) {
                y += 3_000_000;
            }
            if dice.once_in(10) {
                pulses.line();
            }
        }
        desk = pulses.hall.close();
    }
    desk
}
