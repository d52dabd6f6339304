//! Rounding by search and comparison: whole numbers and the nearest f64.

/// The largest whole number that, `step` times, is not above `value` (rule 1.6).
pub fn floor(value: i128, step: i128) -> i128 {
    let near = value / step;
    (near - 1..=near + 1)
        .filter(|whole| whole * step <= value)
        .max()
        .expect("one below is among them")
}

/// The whole number nearest to `value / step`, of two equally near the even one.
pub fn whole(value: i128, step: i128) -> i128 {
    let near = value / step;
    (near - 1..=near + 1)
        .min_by_key(|whole| ((whole * step - value).abs(), whole % 2 != 0))
        .expect("three candidates")
}

/// The bits of the f64 nearest to `value / step`, `step` above 0 (rule 9.17). Every f64 is a fraction
/// of whole numbers, and distances of fractions are compared without rounding. Zero is +0.
pub fn double(value: i128, step: i128) -> u64 {
    if value == 0 {
        return 0;
    }
    let sign = u64::from(value < 0) << 63;
    let (size, step) = (value.unsigned_abs(), step.unsigned_abs());
    let mut power = -40;
    while !at_least(size, step, 1 << 52, power) {
        power -= 1;
    }
    while at_least(size, step, 1 << 53, power) {
        power += 1;
    }
    let below = largest(size, step, power);
    let nearest = nearer(size, step, below, power);
    // 2^53 stands one power higher as 2^52: adding it into the exponent's place does just that.
    let exponent = (power + 52 + 1_023) as u64;
    sign | ((exponent << 52) + (nearest - (1 << 52)))
}

/// Both sides of `size / step` against `whole * 2^power`, cross-multiplied.
fn sides(size: u128, step: u128, whole: u128, power: i32) -> (u128, u128) {
    if power < 0 {
        (size << -power, whole * step)
    } else {
        (size, (whole * step) << power)
    }
}

fn at_least(size: u128, step: u128, whole: u128, power: i32) -> bool {
    let (left, right) = sides(size, step, whole, power);
    left >= right
}

/// The largest whole number from 2^52 whose value is not above the fraction, by halving.
fn largest(size: u128, step: u128, power: i32) -> u64 {
    let (mut low, mut high) = (1_u128 << 52, 1_u128 << 53);
    while high - low > 1 {
        let middle = (low + high) / 2;
        if at_least(size, step, middle, power) {
            low = middle;
        } else {
            high = middle;
        }
    }
    low as u64
}

/// The nearer of `below` and the next one; of two equally near the even one.
fn nearer(size: u128, step: u128, below: u64, power: i32) -> u64 {
    let (fraction, under) = sides(size, step, u128::from(below), power);
    let (_, over) = sides(size, step, u128::from(below) + 1, power);
    let (down, up) = (fraction - under, over - fraction);
    if down < up || (down == up && below % 2 == 0) {
        below
    } else {
        below + 1
    }
}

#[cfg(test)]
mod tests {
    use super::*;
    use crate::dice::Dice;

    #[test]
    fn floor_goes_down_on_both_sides_of_zero() {
        let cases =
            [(0, 0), (1, 0), (65_535, 0), (65_536, 1), (-1, -1), (-65_536, -1), (-65_537, -2)];
        for (value, expected) in cases {
            assert_eq!(floor(value, 65_536), expected, "{value}");
        }
    }

    #[test]
    fn halves_go_to_the_even_one() {
        let cases =
            [(0, 0), (1, 0), (2, 1), (3, 2), (4, 2), (5, 2), (7, 4), (-1, 0), (-3, -2), (-5, -2)];
        for (value, expected) in cases {
            assert_eq!(whole(value, 2), expected, "{value}");
        }
    }

    #[test]
    fn whole_is_nearest_around_every_half() {
        for near in -4..=4 {
            let half = 128_000 * near + 64_000;
            let even = if near % 2 == 0 { near } else { near + 1 };
            assert_eq!(whole(half - 1, 128_000), near);
            assert_eq!(whole(half, 128_000), even);
            assert_eq!(whole(half + 1, 128_000), near + 1);
        }
    }

    #[test]
    fn zero_is_plus_zero_and_simple_values_are_exact() {
        assert_eq!(double(0, 14_000), 0);
        for (value, step, expected) in
            [(1, 1, 1.0), (-1, 2, -0.5), (700, 14_000, 0.05), (-300, 6_000, -0.05)]
        {
            assert_eq!(double(value, step), f64::to_bits(expected));
        }
    }

    /// Both parts are below 2^53 and so convert without loss; IEEE 754 division rounds once.
    #[test]
    fn the_f64_agrees_with_division() {
        let mut dice = Dice::new(754);
        for _ in 0..200_000 {
            let value = (dice.roll() >> (12 + dice.below(52))) as i128;
            let step = 1 + (dice.roll() >> (29 + dice.below(35))) as i128;
            let expected = value as f64 / step as f64;
            assert_eq!(double(value, step), expected.to_bits(), "{value} / {step}");
            if value != 0 {
                assert_eq!(double(-value, step), (-expected).to_bits());
            }
        }
    }

    /// Just under a power of two the nearest f64 is the power itself.
    #[test]
    fn the_f64_carries_into_the_next_power() {
        for step in [3_i128, 1_000, 22_368_256_000] {
            for value in 1..2_000_i128 {
                let expected = (value as f64 / step as f64).to_bits();
                assert_eq!(double(value, step), expected);
            }
        }
        let value = (1_i128 << 53) - 1;
        assert_eq!(double(4 * value + 3, 4), f64::to_bits(9_007_199_254_740_992.0));
    }
}
