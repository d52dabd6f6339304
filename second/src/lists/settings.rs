//! The settings that lists begin with, and the `unit` line of any settings.

use crate::settings::Settings;

/// The bench values of rule 4.14, with what it leaves open.
pub fn bench() -> Settings {
    Settings {
        domain: 0,
        clock: 0x0200_00ff_fe00_0009,
        port: 1,
        announce: 1,
        sync: 0,
        kp: 700,
        ki: 300,
        limit: 100_000,
        window: 120,
        minimum: 30,
        holdoff: 4,
        tolerance: 2_000_000,
        spike: 1_000_000,
        jump: 2_000_000,
    }
}

/// Settings under which P1 to P10 are read, with masters that stay for long.
pub fn exchange() -> Settings {
    Settings { announce: 4, ..bench() }
}

/// Settings under which P11 and P12 are read.
pub fn watch() -> Settings {
    Settings { minimum: 3, holdoff: 0, ..bench() }
}

/// The settings' line.
pub fn line(settings: &Settings) -> String {
    let numbers = [
        settings.announce,
        settings.sync,
        settings.kp,
        settings.ki,
        settings.limit,
        settings.window,
        settings.minimum,
        settings.holdoff,
        settings.tolerance,
        settings.spike,
        settings.jump,
    ];
    let numbers = numbers.map(|number| number.to_string()).join(" ");
    let (domain, clock, port) = (settings.domain, settings.clock, settings.port);
    format!("unit {domain} {clock:016x} {port} {numbers}")
}
