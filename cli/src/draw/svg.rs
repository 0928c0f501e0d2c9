//! The elements of a picture as text.

use std::fmt::Write;

use crate::draw::escape::escaped;

/// The width of a letter in the labels' font, for a size of 1.
const LETTER: f64 = 0.61;

/// The size of a label.
pub const LABEL: f64 = 11.0;

/// A rectangle.
#[derive(Clone, Copy, Debug)]
pub struct Area {
    pub x: f64,
    pub y: f64,
    pub w: f64,
    pub h: f64,
}

impl Area {
    /// The place of its middle.
    pub fn middle(self) -> (f64, f64) {
        (self.x + self.w / 2.0, self.y + self.h / 2.0)
    }

    /// One of so many equal bands, counted from above.
    pub fn band(self, place: usize, bands: usize) -> Area {
        let h = self.h / bands.max(1) as f64;
        let y = self.y + h * place as f64;
        Area { y, h, ..self }
    }
}

/// A picture that grows.
#[derive(Default)]
pub struct Svg {
    text: String,
    /// How many labels had no room.
    pub left_out: usize,
}

/// A number of the picture: three digits behind the point at most.
pub fn number(value: f64) -> String {
    let text = format!("{value:.3}");
    let text = text.trim_end_matches('0').trim_end_matches('.');
    match text {
        "-0" => "0".to_owned(),
        text => text.to_owned(),
    }
}

/// The width of a label of this size.
pub fn width(label: &str, size: f64) -> f64 {
    LETTER * size * label.chars().count() as f64
}

impl Svg {
    /// The text so far.
    pub fn into_text(self) -> String {
        self.text
    }

    /// Adds a line as it is.
    pub fn raw(&mut self, line: &str) {
        self.text.push_str(line);
        self.text.push('\n');
    }

    /// Adds a rectangle of a class, with more attributes as they are.
    pub fn rect(&mut self, class: &str, area: Area, rest: &str) {
        let [x, y, w, h] = [area.x, area.y, area.w, area.h].map(number);
        let _ = writeln!(
            self.text,
            r#"<rect class="{class}" x="{x}" y="{y}" width="{w}" height="{h}"{rest}/>"#
        );
    }

    /// Adds a line between two places.
    pub fn line(&mut self, class: &str, from: (f64, f64), to: (f64, f64)) {
        let [x1, y1, x2, y2] = [from.0, from.1, to.0, to.1].map(number);
        let _ = writeln!(
            self.text,
            r#"<line class="{class}" x1="{x1}" y1="{y1}" x2="{x2}" y2="{y2}"/>"#
        );
    }

    /// Adds a path through places.
    pub fn path(&mut self, class: &str, places: &[(f64, f64)]) {
        let mut way = String::new();
        for (place, (x, y)) in places.iter().enumerate() {
            let letter = if place == 0 { 'M' } else { 'L' };
            let _ = write!(way, "{letter}{} {}", number(*x), number(*y));
        }
        let _ = writeln!(self.text, r#"<path class="{class}" d="{way}"/>"#);
    }

    /// Adds a text whose base line is at a place.
    pub fn text(&mut self, class: &str, (x, y): (f64, f64), words: &str) {
        let [x, y] = [x, y].map(number);
        let words = escaped(words);
        let _ = writeln!(
            self.text,
            r#"<text class="{class}" x="{x}" y="{y}">{words}</text>"#
        );
    }

    /// Adds a text that is read from below and ends at a place.
    pub fn upright(&mut self, class: &str, (x, y): (f64, f64), words: &str) {
        let [x, y] = [x, y].map(number);
        let words = escaped(words);
        let _ = writeln!(
            self.text,
            r#"<text class="{class}" transform="translate({x} {y}) rotate(-90)">{words}</text>"#
        );
    }

    /// Adds the first of some labels that has room in an area, in its middle and on white; counts it
    /// if none has.
    pub fn label(&mut self, area: Area, labels: &[String]) {
        let needed = |label: &str| width(label, LABEL) + 6.0;
        let fits = |label: &&String| needed(label) + 2.0 <= area.w && LABEL <= area.h;
        match labels.iter().find(fits) {
            Some(label) => {
                let ((x, y), w) = (area.middle(), needed(label));
                let h = (LABEL + 3.0).min(area.h);
                let paper = Area {
                    x: x - w / 2.0,
                    y: y - h / 2.0,
                    w,
                    h,
                };
                self.rect("paper", paper, r#" rx="2""#);
                self.text("mark", (x, y + 0.35 * LABEL), label);
            }
            None => self.left_out += 1,
        }
    }

    /// Adds what a function draws as one thing that says these words on hover.
    pub fn titled(&mut self, words: &str, draw: impl FnOnce(&mut Svg)) {
        let words = escaped(words);
        let _ = writeln!(self.text, "<g><title>{words}</title>");
        draw(self);
        self.raw("</g>");
    }
}
