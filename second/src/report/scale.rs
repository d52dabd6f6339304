//! Scales: where a value stands in a picture, and the values that its axis names.

/// A range of values on a stretch of the picture.
#[derive(Clone)]
pub struct Scale {
    low: f64,
    high: f64,
    from: f64,
    to: f64,
    /// Beyond this size, either way, ten times the value is one step further.
    bend: Option<f64>,
}

impl Scale {
    /// From `low` to `high`; a range of nothing is widened.
    pub fn linear(low: f64, high: f64, from: f64, to: f64) -> Scale {
        let more = if high - low < 1e-9 { 1.0_f64.max(low.abs() / 100.0) } else { 0.0 };
        Scale { low: low - more, high: high + more, from, to, bend: None }
    }

    /// The same with room at both ends, so that no point stands on the edge.
    pub fn roomy(low: f64, high: f64, from: f64, to: f64, share: f64) -> Scale {
        let more = (high - low) * share;
        Scale::linear(low - more, high + more, from, to)
    }

    /// Values around 0 as they are, and far ones drawn near.
    pub fn bent(low: f64, high: f64, from: f64, to: f64, bend: f64) -> Scale {
        Scale { bend: Some(bend), ..Scale::linear(low, high, from, to) }
    }

    fn step(&self, value: f64) -> f64 {
        match self.bend {
            Some(bend) if value.abs() > bend => {
                value.signum() * (1.0 + (value.abs() / bend).log10())
            }
            Some(bend) => value / bend,
            None => value,
        }
    }

    pub fn at(&self, value: f64) -> f64 {
        let (low, high) = (self.step(self.low), self.step(self.high));
        self.from + (self.step(value) - low) / (high - low) * (self.to - self.from)
    }

    /// Round values from one end to the other, about so many and at least so far apart, with
    /// their texts.
    pub fn ticks(&self, count: usize, apart: f64) -> Vec<(f64, String)> {
        match self.bend {
            Some(bend) => self.bent_ticks(bend),
            None => {
                let step = round_step((self.high - self.low) / count as f64).max(apart);
                let first = (self.low / step).ceil() as i64;
                let last = (self.high / step).floor() as i64;
                (first..=last).map(|n| n as f64 * step).map(|v| (v, label(v, step))).collect()
            }
        }
    }

    fn bent_ticks(&self, bend: f64) -> Vec<(f64, String)> {
        let sizes = (0..12).map(|power| bend * 10_f64.powi(power));
        let all = sizes.flat_map(|size| [-size, size]).chain([0.0]);
        let inside = all.filter(|value| (self.low..=self.high).contains(value));
        inside.map(|value| (value, label(value, bend))).collect()
    }
}

/// 1, 2 or 5 times a power of ten, at least as large as asked.
fn round_step(least: f64) -> f64 {
    let power = 10_f64.powf(least.log10().floor());
    let size = [1.0, 2.0, 5.0].into_iter().find(|size| size * power >= least * 0.999);
    size.unwrap_or(10.0) * power
}

/// A value with as many decimals as its step has, in groups of three digits.
pub fn label(value: f64, step: f64) -> String {
    let decimals = (-step.log10().floor()).clamp(0.0, 6.0) as usize;
    let text = format!("{:.decimals$}", value.abs());
    let (whole, rest) = text.split_once('.').map_or((text.as_str(), None), |(w, r)| (w, Some(r)));
    let zero = text.bytes().all(|octet| b"0.".contains(&octet));
    let sign = if value < 0.0 && !zero { "-" } else { "" };
    let rest = rest.map_or(String::new(), |rest| format!(".{rest}"));
    format!("{sign}{}{rest}", grouped(whole))
}

/// Digits in groups of three.
fn grouped(digits: &str) -> String {
    let mut text = String::new();
    for (place, digit) in digits.chars().enumerate() {
        if place > 0 && (digits.len() - place) % 3 == 0 {
            text.push(',');
        }
        text.push(digit);
    }
    text
}

/// A count in groups of three digits.
pub fn count(number: usize) -> String {
    grouped(&number.to_string())
}

/// A unit in which times of this size, in ns, are short numbers: its name and its ns.
pub fn unit_of(size: f64) -> (&'static str, f64) {
    match size {
        size if size < 20_000.0 => ("ns", 1.0),
        size if size < 20_000_000.0 => ("µs", 1e3),
        _ => ("ms", 1e6),
    }
}

#[cfg(test)]
mod tests {
    use super::*;

    fn texts(scale: &Scale) -> Vec<String> {
        scale.ticks(5, 0.0).into_iter().map(|(_, text)| text).collect()
    }

    #[test]
    fn ticks_are_round() {
        assert_eq!(
            texts(&Scale::linear(0.0, 100.0, 0.0, 1.0)),
            ["0", "20", "40", "60", "80", "100"]
        );
        assert_eq!(texts(&Scale::linear(-0.3, 0.3, 0.0, 1.0)), ["-0.2", "0.0", "0.2"]);
        assert_eq!(texts(&Scale::linear(0.0, 6_000.0, 0.0, 1.0)), ["0", "2,000", "4,000", "6,000"]);
        assert_eq!(texts(&Scale::linear(7.0, 7.0, 0.0, 1.0)), ["6.0", "6.5", "7.0", "7.5", "8.0"]);
    }

    #[test]
    fn a_bent_scale_names_powers_of_ten() {
        let mut ticks = texts(&Scale::bent(-500.0, 90_000.0, 0.0, 1.0, 100.0));
        ticks.sort();
        assert_eq!(ticks, ["-100", "0", "1,000", "10,000", "100"]);
    }

    #[test]
    fn values_stand_where_they_belong() {
        let scale = Scale::linear(0.0, 10.0, 100.0, 0.0);
        assert_eq!((scale.at(0.0), scale.at(5.0), scale.at(10.0)), (100.0, 50.0, 0.0));
        let bent = Scale::bent(-1_000.0, 1_000.0, 0.0, 4.0, 100.0);
        assert_eq!(
            [-1_000.0, -100.0, 0.0, 50.0, 1_000.0].map(|v| bent.at(v)),
            [0.0, 1.0, 2.0, 2.5, 4.0]
        );
    }

    #[test]
    fn labels_have_groups_and_decimals() {
        assert_eq!(label(-1_234_567.0, 1.0), "-1,234,567");
        assert_eq!(label(-0.001, 0.1), "0.0");
        assert_eq!(count(1_000), "1,000");
    }
}
