//! The windows: the last one before each wipe, with its line and how far the samples lie from it.

use super::draw::Svg;
use super::scale::{count, label, unit_of, Scale};
use super::story::{Life, Sample, Window};
use crate::watch::Line;

const WIDTH: f64 = 490.0;
const LEFT: f64 = 74.0;
const RIGHT: f64 = 480.0;
/// Top and bottom of the samples, and of what is left of them without the line.
const SAMPLES: (f64, f64) = (44.0, 174.0);
const REST: (f64, f64) = (186.0, 246.0);
const HEIGHT: f64 = 288.0;

/// How many windows a unit's report has at most: those with the most samples.
const PANELS: usize = 12;

/// A picture of each window of two samples or more; and how many with samples are left out.
pub fn windows(life: &Life) -> (Vec<String>, usize) {
    let filled = life.windows.iter().filter(|window| !window.samples.is_empty()).count();
    let mut kept: Vec<&Window> =
        life.windows.iter().filter(|window| window.samples.len() > 1).collect();
    kept.sort_by_key(|window| std::cmp::Reverse(window.samples.len()));
    kept.truncate(PANELS);
    kept.sort_by_key(|window| window.wipes);
    (kept.iter().map(|window| panel(window)).collect(), filled - kept.len())
}

/// One window: the last W samples, x their place in it; below what is left without the line.
fn panel(window: &Window) -> String {
    let first = window.samples.len().saturating_sub(window.holds);
    let held = &window.samples[first..];
    let x = Scale::linear(0.0, held.len().saturating_sub(1).max(1) as f64, LEFT, RIGHT - 8.0);
    let mut svg = Svg::default();
    svg.text("strong", LEFT - 60.0, 14.0, &title(window));
    svg.text("", LEFT - 60.0, 31.0, &subtitle(window, held));
    let (y, unit, name) = window_scale(held);
    svg.left_axis(&y, (LEFT, RIGHT), 5);
    svg.upright(12.0, (SAMPLES.0 + SAMPLES.1) / 2.0, &format!("y, {name}"));
    let points = held.iter().map(|one| (one.valid, one.y as f64 / unit));
    dots(&mut svg, &x, &y, SAMPLES, &points.collect::<Vec<_>>());
    if let Some(line) = &window.line {
        let end = held.len() as f64 - 1.0;
        let at = |place: f64| (x.at(place), y.at(value(line, place) / unit));
        svg.path("fit", &[at(0.0), at(end)]);
        rest(&mut svg, &x, held, line);
    }
    svg.line("axis", (LEFT, REST.1), (RIGHT, REST.1));
    svg.lower_axis(&x, REST.1, 6, 1.0);
    svg.text("middle", (LEFT + RIGHT) / 2.0, HEIGHT - 8.0, "x, place in the window");
    svg.finish(WIDTH, HEIGHT, "a window and its line")
}

/// The line's value at a place, in ns.
fn value(line: &Line, place: f64) -> f64 {
    (line.level as f64 + line.slope as f64 * place) / line.over as f64
}

/// The samples less the line.
fn rest(svg: &mut Svg, x: &Scale, held: &[Sample], line: &Line) {
    let less = (0..)
        .zip(held)
        .map(|(place, one)| (one.valid, one.y as f64 - value(line, f64::from(place))));
    let less: Vec<(bool, f64)> = less.collect();
    let valid = less.iter().filter(|(valid, _)| *valid);
    let most = valid.map(|(_, rest)| rest.abs()).fold(1.0, f64::max);
    let (name, unit) = unit_of(most);
    let y = Scale::roomy(-most / unit, most / unit, REST.1, REST.0, 0.08);
    svg.left_axis(&y, (LEFT, RIGHT), 4);
    svg.upright(12.0, (REST.0 + REST.1) / 2.0, &format!("rest, {name}"));
    let points: Vec<(bool, f64)> = less.iter().map(|(valid, rest)| (*valid, rest / unit)).collect();
    dots(svg, x, &y, REST, &points);
}

/// A dot for each place, a ring where the sample is invalid; one far out stands at the edge.
fn dots(svg: &mut Svg, x: &Scale, y: &Scale, (top, bottom): (f64, f64), points: &[(bool, f64)]) {
    let small = if points.len() > 40 { 1.7 } else { 2.4 };
    for (place, (valid, value)) in points.iter().enumerate() {
        let (class, radius) = if *valid { ("sample", small) } else { ("invalid", 3.2) };
        let y = y.at(*value).clamp(top - 3.0, bottom + 3.0);
        svg.dot(class, x.at(place as f64), y, radius);
    }
}

/// A scale for the y of the valid samples, in the unit that suits them: its ns and its name. It
/// need not have 0 in it.
fn window_scale(held: &[Sample]) -> (Scale, f64, &'static str) {
    let ys = || held.iter().filter(|one| one.valid).map(|one| one.y as f64);
    let low = ys().min_by(f64::total_cmp).unwrap_or(0.0);
    let high = ys().max_by(f64::total_cmp).unwrap_or(0.0);
    let (name, unit) = unit_of(high.max(-low));
    (Scale::roomy(low / unit, high / unit, SAMPLES.1, SAMPLES.0, 0.05), unit, name)
}

fn title(window: &Window) -> String {
    let from = match window.wipes {
        0 => String::from("from the start"),
        number => format!("from wipe {number}"),
    };
    match window.ended {
        Some(cause) => format!("{from} to wipe {}: {cause}", window.wipes + 1),
        None => format!("{from} to the end"),
    }
}

fn subtitle(window: &Window, held: &[Sample]) -> String {
    let taken = count(window.samples.len());
    let valid = held.iter().filter(|one| one.valid).count();
    let counts = format!("{taken} taken, {} in the window, {valid} valid", held.len());
    match &window.line {
        Some(line) => {
            let slope = line.slope as f64 / line.over as f64;
            format!("{counts}; slope {} ns/s", label(slope, 0.1))
        }
        None => format!("{counts}; no line is due"),
    }
}
