//! The numbers to meet, P1 to P12 (section 11 of the rules), through the whole unit.

use second::lists::desk::Desk;
use second::lists::hall::{Hall, SECOND};
use second::lists::settings;
use second::settings::Settings;

fn hall(kp: i128, ki: i128) -> Hall {
    let settings = Settings { kp, ki, ..settings::exchange() };
    Hall::with_master(Desk::default(), settings)
}

/// The answer to a measurement of a fresh unit with Kp 700, Ki 300, k 0 and limit 100,000.
fn once(forward: i128, back: i128) -> String {
    hall(700, 300).exchange(forward, back)
}

#[test]
fn p1_to_p3_halves_go_to_the_even_one() {
    assert_eq!(once(10_500, 10_000), "measured delay=10250 used=10250 offset=250 output=250");
    assert_eq!(once(10_501, 10_000), "measured delay=10250 used=10250 offset=251 output=251");
    assert_eq!(once(10_503, 10_000), "measured delay=10252 used=10252 offset=251 output=251");
}

#[test]
fn p4_a_sum_below_zero() {
    assert_eq!(once(-1, 0), "neg");
    assert_eq!(once(10_000, -10_001), "neg");
    assert!(once(0, 0).starts_with("measured delay=0 used=0 offset=0"));
}

#[test]
fn p5_the_longest_sum() {
    assert!(once(9_999_999, 9_999_999).starts_with("measured delay=9999999 "));
    assert_eq!(once(10_000_000, 9_999_999), "long");
}

#[test]
fn p6_the_delay_used() {
    let mut hall = hall(700, 300);
    let used = [10_000, 15_000, 15_000].map(|delay| hall.measure(delay, 0));
    assert!(used[0].starts_with("measured delay=10000 used=10000 "));
    assert!(used[1].starts_with("measured delay=15000 used=10000 "));
    assert!(used[2].starts_with("measured delay=15000 used=15000 "));
}

#[test]
fn p7_to_p9_the_output() {
    let mut twice = hall(700, 300);
    assert!(twice.measure(10_000, 250).ends_with(" offset=250 output=250"));
    assert!(twice.measure(10_000, 250).ends_with(" offset=250 output=325"));
    assert!(hall(700, 300).measure(10_000, 50_000).ends_with(" output=50000"));
    let far = hall(700, 300).measure(10_000, 100_000_000);
    assert!(far.ends_with(" offset=100000000 output=100000"));
    assert_eq!(hall(700, 300).measure(10_000, 100_000_001), "step offset=100000001 wiped");
}

#[test]
fn p10_outputs_on_a_half() {
    assert!(hall(490, 10).measure(10_000, 1).ends_with(" offset=1 output=0"));
    assert!(hall(490, 10).measure(10_000, 3).ends_with(" offset=3 output=2"));
    assert!(hall(490, 10).measure(10_000, -1).ends_with(" offset=-1 output=0"));
    assert!(hall(490, 10).measure(10_000, -3).ends_with(" offset=-3 output=-2"));
}

/// The last line after pulses with these y, each this long after the one before.
fn line(pulses: &[(i128, i128)]) -> String {
    let mut hall = Hall::open(Desk::default(), settings::watch());
    let mut reference = 0;
    for (interval, y) in pulses {
        reference += interval;
        hall.tick(reference, reference + y);
    }
    hall.say("line")
}

/// 0.05 as an f64 is 3fa999999999999a.
#[test]
fn p11_a_straight_row() {
    let answer = line(&[(SECOND, 0), (SECOND, 50), (SECOND, 100)]);
    assert_eq!(answer, "line level=0 slope=300 over=6 n=3 wipes=0 ppm=3fa999999999999a");
}

#[test]
fn p12_an_invalid_sample_keeps_its_place() {
    let answer = line(&[(SECOND, 0), (SECOND, 50), (1_003_000_000, 100), (SECOND, 150)]);
    assert_eq!(answer, "line level=0 slope=700 over=14 n=3 wipes=0 ppm=3fa999999999999a");
}
