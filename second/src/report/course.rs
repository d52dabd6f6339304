//! The course of a unit over now: its master, its state, offsets and output, with every wipe marked.

use super::draw::{columns, Svg};
use super::scale::Scale;
use super::story::{Life, Measured};
use crate::answer::identity_text;

const WIDTH: f64 = 1_000.0;
const LEFT: f64 = 84.0;
const RIGHT: f64 = 984.0;
/// Top and bottom of the parts, from above: two lanes and two pictures.
const MASTER: (f64, f64) = (22.0, 40.0);
const STATE: (f64, f64) = (46.0, 64.0);
const OFFSET: (f64, f64) = (80.0, 270.0);
const OUTPUT: (f64, f64) = (292.0, 432.0);
const HEIGHT: f64 = 476.0;

/// The picture; none where no accepted call has a now.
pub fn course(life: &Life) -> Option<String> {
    let (first, last) = life.span?;
    let (first, last) = (first as f64, last as f64);
    let minutes = last - first > 600_000.0;
    let (unit, name) = if minutes { (60_000.0, "min") } else { (1_000.0, "s") };
    let course =
        Course { now: Scale::roomy(first / unit, last / unit, LEFT, RIGHT, 0.01), unit, last };
    let mut svg = Svg::default();
    course.lanes(life, &mut svg);
    course.offsets(life, &mut svg);
    course.output(life, &mut svg);
    course.marks(life, &mut svg);
    svg.line("axis", (LEFT, OUTPUT.1), (RIGHT, OUTPUT.1));
    svg.lower_axis(&course.now, OUTPUT.1, 10, 0.0);
    svg.text("middle", (LEFT + RIGHT) / 2.0, HEIGHT - 8.0, &format!("now, {name}"));
    Some(svg.finish(WIDTH, HEIGHT, "offset and output over now"))
}

struct Course {
    now: Scale,
    unit: f64,
    last: f64,
}

/// One picture of a value over now.
struct Curve<'a> {
    scale: &'a Scale,
    value: fn(&Measured) -> f64,
    class: &'a str,
    /// Whether a value stands until the next one.
    stands: bool,
}

impl Course {
    fn x(&self, now: i128) -> f64 {
        self.now.at(now as f64 / self.unit).max(LEFT)
    }

    /// Boxes from one change to the next; those too narrow to see go to the box behind them.
    fn lane(&self, svg: &mut Svg, place: (f64, f64), changes: &[(i128, String, String)]) {
        let end = self.now.at(self.last / self.unit);
        let mut from = None;
        for (number, (now, class, text)) in changes.iter().enumerate() {
            let next = changes.get(number + 1).map_or(end, |(now, _, _)| self.x(*now));
            let start = from.unwrap_or(self.x(*now));
            if next - start < 1.0 && number + 1 < changes.len() {
                from = Some(start);
                continue;
            }
            from = None;
            svg.block(class, (start, next), place, text);
            if next - start > 7.5 * text.chars().count() as f64 {
                svg.text("middle", (start + next) / 2.0, place.1 - 5.0, text);
            }
        }
    }

    fn lanes(&self, life: &Life, svg: &mut Svg) {
        svg.text("end", LEFT - 6.0, MASTER.1 - 5.0, "master");
        let masters = life.masters.iter().enumerate().map(|(number, (now, master))| {
            let class = match (master, number % 2) {
                (None, _) => "none",
                (_, 0) => "one",
                _ => "other",
            };
            (*now, class.to_string(), master.map_or(String::from("none"), identity_text))
        });
        self.lane(svg, MASTER, &masters.collect::<Vec<_>>());
        svg.text("end", LEFT - 6.0, STATE.1 - 5.0, "state");
        let states = life.states.iter().map(|(now, port, servo)| {
            let name = if *port == "slave" { *servo } else { *port };
            (*now, name.to_string(), name.to_string())
        });
        self.lane(svg, STATE, &states.collect::<Vec<_>>());
    }

    fn offsets(&self, life: &Life, svg: &mut Svg) {
        let sizes = life.measured.iter().map(|one| one.offset.abs() as f64);
        let (scale, name) = offset_scale(sizes.collect());
        svg.left_axis(&scale, (LEFT, RIGHT), 6);
        svg.upright(14.0, (OFFSET.0 + OFFSET.1) / 2.0, name);
        let value = |one: &Measured| one.offset as f64;
        self.curve(life, svg, &Curve { scale: &scale, value, class: "offset", stands: false });
    }

    fn output(&self, life: &Life, svg: &mut Svg) {
        let outputs = || life.measured.iter().map(|one| one.output as f64);
        let (low, high) = (outputs().fold(0.0, f64::min), outputs().fold(0.0, f64::max));
        let scale = Scale::roomy(low, high, OUTPUT.1, OUTPUT.0, 0.05);
        svg.left_axis(&scale, (LEFT, RIGHT), 5);
        svg.upright(14.0, (OUTPUT.0 + OUTPUT.1) / 2.0, "output, ppb");
        let value = |one: &Measured| one.output as f64;
        self.curve(life, svg, &Curve { scale: &scale, value, class: "output", stands: true });
    }

    /// A value over now, with a gap at each wipe.
    fn curve(&self, life: &Life, svg: &mut Svg, curve: &Curve) {
        let dense = life.measured.len() as f64 > RIGHT - LEFT;
        for part in life.measured.chunk_by(|one, next| one.wipes == next.wipes) {
            let at = |one: &Measured| (self.x(one.now), curve.scale.at((curve.value)(one)));
            let points: Vec<(f64, f64)> = part.iter().map(at).collect();
            if dense {
                band(svg, curve.class, &points);
                continue;
            }
            if curve.stands {
                let wiped = life.wipes.get(part[0].wipes).map(|wipe| self.x(wipe.now));
                let end = wiped.unwrap_or(self.now.at(self.last / self.unit));
                svg.path(curve.class, &steps(&points, end));
            } else {
                svg.path(&format!("{} thin", curve.class), &points);
            }
            points.iter().for_each(|(x, y)| svg.dot(curve.class, *x, *y, 2.0));
        }
    }

    /// A line through both pictures for each wipe, numbered as in the table below.
    fn marks(&self, life: &Life, svg: &mut Svg) {
        let wipes = life.wipes.iter().enumerate();
        let marks = wipes.map(|(number, wipe)| (self.x(wipe.now), number + 1, wipe.cause));
        svg.marks(&marks.collect::<Vec<_>>(), (MASTER.0 - 4.0, OUTPUT.1), WIDTH);
    }
}

/// As they are where they are of a size; bent where a few stand far out. With the axis' name.
fn offset_scale(mut sizes: Vec<f64>) -> (Scale, &'static str) {
    sizes.sort_by(f64::total_cmp);
    let most = sizes.last().copied().unwrap_or(1.0).max(1.0);
    let middle = sizes.get(sizes.len() / 2).copied().unwrap_or(1.0);
    let bend = 10_f64.powf((2.0 * middle).max(10.0).log10().floor());
    if most < 30.0 * bend {
        return (Scale::roomy(-most, most, OFFSET.1, OFFSET.0, 0.04), "offset, ns");
    }
    (Scale::bent(-most, most, OFFSET.1, OFFSET.0, bend), "offset, ns, by powers of ten")
}

/// Many points: for each column what they span, and their mean.
fn band(svg: &mut Svg, class: &str, points: &[(f64, f64)]) {
    let columns = columns(points);
    for column in &columns {
        let (x, more) = (column.x + 0.5, 0.5);
        svg.line(&format!("{class} span"), (x, column.low - more), (x, column.high + more));
    }
    let means: Vec<(f64, f64)> = columns.iter().map(|one| (one.x + 0.5, one.mean)).collect();
    svg.path(class, &means);
}

/// Each value until the next one, the last until `end`.
fn steps(points: &[(f64, f64)], end: f64) -> Vec<(f64, f64)> {
    let ends = points.iter().skip(1).map(|(x, _)| *x).chain([end]);
    points.iter().zip(ends).flat_map(|((x, y), end)| [(*x, *y), (end, *y)]).collect()
}
