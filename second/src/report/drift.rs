//! The drift watch over the reference: y of every sample, with every wipe marked.

use super::draw::{columns, Svg};
use super::scale::{unit_of, Scale};
use super::story::{Life, Sample};

const WIDTH: f64 = 1_000.0;
const LEFT: f64 = 84.0;
const RIGHT: f64 = 984.0;
const TOP: f64 = 22.0;
const BOTTOM: f64 = 222.0;
const HEIGHT: f64 = 266.0;
const SECOND: f64 = 1e9;

/// y over the reference; none where no sample was taken.
pub fn overview(life: &Life) -> Option<String> {
    let samples: Vec<&Sample> = life.windows.iter().flat_map(|window| &window.samples).collect();
    let references = || samples.iter().map(|one| one.reference as f64 / SECOND);
    let first = references().min_by(f64::total_cmp)?;
    let last = references().max_by(f64::total_cmp)?;
    let x = Scale::roomy(first, last, LEFT, RIGHT, 0.01);
    let (y, unit, name) = y_scale(&samples, TOP, BOTTOM);
    let mut svg = Svg::default();
    svg.left_axis(&y, (LEFT, RIGHT), 6);
    svg.upright(14.0, (TOP + BOTTOM) / 2.0, &format!("y, {name}"));
    let dense = samples.len() as f64 > (RIGHT - LEFT) / 2.0;
    for window in &life.windows {
        let place = |one: &Sample| {
            let y = y.at(one.y as f64 / unit).clamp(TOP - 2.0, BOTTOM);
            (x.at(one.reference as f64 / SECOND), y)
        };
        samples_of(window.samples.iter(), place, dense, &mut svg);
    }
    marks(life, &x, &mut svg);
    svg.line("axis", (LEFT, BOTTOM), (RIGHT, BOTTOM));
    svg.lower_axis(&x, BOTTOM, 10, 0.0);
    svg.text("middle", (LEFT + RIGHT) / 2.0, HEIGHT - 8.0, "reference, s");
    Some(svg.finish(WIDTH, HEIGHT, "y over the reference"))
}

/// A scale for the y of the valid samples, in the unit that suits them: its ns and its name.
fn y_scale(samples: &[&Sample], top: f64, bottom: f64) -> (Scale, f64, &'static str) {
    let ys = || samples.iter().filter(|one| one.valid).map(|one| one.y as f64);
    let (low, high) = (ys().fold(0.0, f64::min), ys().fold(0.0, f64::max));
    let (name, unit) = unit_of(high.max(-low));
    (Scale::roomy(low / unit, high / unit, bottom, top, 0.05), unit, name)
}

/// Valid samples as dots or, where they are many, as what they span; invalid ones as rings.
fn samples_of<'a>(
    samples: impl Iterator<Item = &'a Sample>,
    place: impl Fn(&Sample) -> (f64, f64),
    dense: bool,
    svg: &mut Svg,
) {
    let (valid, invalid): (Vec<&Sample>, Vec<&Sample>) = samples.partition(|one| one.valid);
    let points: Vec<(f64, f64)> = valid.into_iter().map(&place).collect();
    if dense {
        for column in columns(&points) {
            let x = column.x + 0.5;
            svg.line("sample span", (x, column.low - 0.8), (x, column.high + 0.8));
        }
    } else {
        points.iter().for_each(|(x, y)| svg.dot("sample", *x, *y, 2.4));
    }
    for (x, y) in invalid.into_iter().map(place) {
        svg.dot("invalid", x, y, 3.2);
    }
}

/// A line for each wipe behind the first sample, numbered as in the table below.
fn marks(life: &Life, x: &Scale, svg: &mut Svg) {
    let begun = life.windows.iter().position(|window| !window.samples.is_empty()).unwrap_or(0);
    let wipes = life.wipes.iter().enumerate().skip(begun);
    let at = |reference: i128| x.at(reference as f64 / SECOND);
    let marks = wipes.map(|(number, wipe)| (at(wipe.reference), number + 1, wipe.cause));
    svg.marks(&marks.collect::<Vec<_>>(), (TOP - 4.0, BOTTOM), WIDTH);
}
