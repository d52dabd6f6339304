//! The pieces of a picture in SVG: text, lines, dots, an axis, a row of points.

use super::scale::Scale;
use std::fmt::Write;

/// Marks nearer than this share a text.
const MARK: f64 = 36.0;

/// A picture in the making.
#[derive(Default)]
pub struct Svg(String);

/// Text as HTML and SVG may hold it.
pub fn escaped(text: &str) -> String {
    let mut out = String::new();
    for character in text.chars() {
        match character {
            '<' => out.push_str("&lt;"),
            '>' => out.push_str("&gt;"),
            '&' => out.push_str("&amp;"),
            '"' => out.push_str("&quot;"),
            other if other.is_control() => out.push('\u{fffd}'),
            other => out.push(other),
        }
    }
    out
}

impl Svg {
    fn add(&mut self, text: std::fmt::Arguments) {
        self.0.write_fmt(text).expect("a string can be written");
        self.0.push('\n');
    }

    pub fn line(&mut self, class: &str, (x1, y1): (f64, f64), (x2, y2): (f64, f64)) {
        let place = format!(r#"x1="{x1:.1}" y1="{y1:.1}" x2="{x2:.1}" y2="{y2:.1}""#);
        self.add(format_args!(r#"<line class="{class}" {place}/>"#));
    }

    pub fn text(&mut self, class: &str, x: f64, y: f64, text: &str) {
        let text = escaped(text);
        self.add(format_args!(r#"<text class="{class}" x="{x:.1}" y="{y:.1}">{text}</text>"#));
    }

    /// A text that reads upwards.
    pub fn upright(&mut self, x: f64, y: f64, text: &str) {
        let turn = format!(r#"transform="translate({x:.1} {y:.1}) rotate(-90)""#);
        self.add(format_args!(r#"<text class="middle" {turn}>{}</text>"#, escaped(text)));
    }

    /// A box with a title that a pointer brings up.
    pub fn block(&mut self, class: &str, x: (f64, f64), y: (f64, f64), title: &str) {
        let (width, height) = ((x.1 - x.0).max(0.5), y.1 - y.0);
        let place =
            format!(r#"x="{:.1}" y="{:.1}" width="{width:.1}" height="{height:.1}""#, x.0, y.0);
        let title = escaped(title);
        self.add(format_args!(r#"<rect class="{class}" {place}><title>{title}</title></rect>"#));
    }

    pub fn dot(&mut self, class: &str, x: f64, y: f64, radius: f64) {
        self.add(format_args!(r#"<circle class="{class}" cx="{x:.1}" cy="{y:.1}" r="{radius}"/>"#));
    }

    /// One line through many points.
    pub fn path(&mut self, class: &str, points: &[(f64, f64)]) {
        let mut shape = String::new();
        for (place, (x, y)) in points.iter().enumerate() {
            let word = if place == 0 { 'M' } else { 'L' };
            let _ = write!(shape, "{word}{x:.1} {y:.1}");
        }
        self.add(format_args!(r#"<path class="{class}" d="{shape}"/>"#));
    }

    /// Values of an axis at the left, each with a line across.
    pub fn left_axis(&mut self, scale: &Scale, (left, right): (f64, f64), count: usize) {
        for (value, text) in scale.ticks(count, 0.0) {
            let y = scale.at(value);
            let class = if value == 0.0 { "zero" } else { "grid" };
            self.line(class, (left, y), (right, y));
            self.text("end", left - 6.0, y + 4.0, &text);
        }
    }

    /// Values of an axis below, at least so far apart.
    pub fn lower_axis(&mut self, scale: &Scale, y: f64, count: usize, apart: f64) {
        for (value, text) in scale.ticks(count, apart) {
            let x = scale.at(value);
            self.line("axis", (x, y), (x, y + 5.0));
            self.text("middle", x, y + 18.0, &text);
        }
    }

    /// A line down for each mark, by its place, number and name; above it number and name where
    /// there is room, and numbers together where marks stand together.
    pub fn marks(&mut self, marks: &[(f64, usize, &str)], (top, bottom): (f64, f64), end: f64) {
        let mut groups: Vec<(f64, usize, usize, &str)> = Vec::new();
        for (x, number, name) in marks {
            self.line("wipe", (*x, top), (*x, bottom));
            match groups.last_mut() {
                Some((from, _, last, _)) if x - *from < MARK => *last = *number,
                _ => groups.push((*x, *number, *number, name)),
            }
        }
        let mut free = 0.0;
        for (place, (x, first, last, name)) in groups.iter().enumerate() {
            let next = groups.get(place + 1).map_or(end, |group| group.0);
            let whole = format!("{first} {name}");
            let width = 6.6 * whole.len() as f64;
            let (class, text) = match (first == last, next - x > width, x - free > width) {
                (true, true, _) => ("mark", whole),
                (true, _, true) => ("mark end", whole),
                (true, _, _) => ("mark", first.to_string()),
                _ => ("mark", format!("{first}-{last}")),
            };
            self.text(class, *x, top - 4.0, &text);
            free = if class == "mark" { x + 6.6 * text.len() as f64 } else { *x };
        }
    }

    /// The whole picture, so wide and so high.
    pub fn finish(self, width: f64, height: f64, name: &str) -> String {
        let (size, name) = (format!(r#"viewBox="0 0 {width} {height}""#), escaped(name));
        let start = format!(r#"<svg {size} role="img" aria-label="{name}">"#);
        format!("{start}\n{}</svg>\n", self.0)
    }
}

/// What a column of the picture holds: the least, the greatest and the middle of its points.
pub struct Column {
    pub x: f64,
    pub low: f64,
    pub high: f64,
    pub mean: f64,
}

/// Points gathered by columns one wide, in the order in which they come.
pub fn columns(points: &[(f64, f64)]) -> Vec<Column> {
    let mut columns: Vec<(Column, f64)> = Vec::new();
    for (x, y) in points {
        match columns.last_mut() {
            Some((last, count)) if last.x == x.floor() => {
                last.low = last.low.min(*y);
                last.high = last.high.max(*y);
                *count += 1.0;
                last.mean += (y - last.mean) / *count;
            }
            _ => columns.push((Column { x: x.floor(), low: *y, high: *y, mean: *y }, 1.0)),
        }
    }
    columns.into_iter().map(|(column, _)| column).collect()
}

#[cfg(test)]
mod tests {
    use super::*;

    #[test]
    fn text_is_escaped() {
        assert_eq!(escaped("<a & \"b\">\r"), "&lt;a &amp; &quot;b&quot;&gt;\u{fffd}");
    }

    #[test]
    fn columns_keep_least_greatest_and_mean() {
        let found = columns(&[(1.0, 5.0), (1.5, 1.0), (1.9, 3.0), (4.0, 2.0)]);
        assert_eq!(found.len(), 2);
        assert_eq!((found[0].low, found[0].high, found[0].mean), (1.0, 5.0, 3.0));
        assert_eq!((found[1].x, found[1].low), (4.0, 2.0));
    }
}
