//! A script's calls from left to right, offsets upward, and each object from the call that made it to
//! the one that ended it.

use std::collections::{BTreeMap, BTreeSet};

use crate::draw::labels::CallLabels;
use crate::draw::patterns::{self, fill};
use crate::draw::refusals::Marks;
use crate::draw::scale::Scale;
use crate::draw::story::{Span, Story, Use};
use crate::draw::svg::{number, Area, Svg};

/// The widest column, and the narrowest before the plot grows.
const COLUMN: (f64, f64) = (130.0, 2.0);
/// The lowest and the highest plot, and the least height of a block, if all of them have room: for
/// any block, and for each of so many holders.
const PLOT: (f64, f64) = (220.0, 900.0);
const LEAST: f64 = 20.0;
const BAND: (f64, usize) = (14.0, 4);
/// The greatest share of the plot that one interval gets where others are higher than to scale.
const GREATEST: f64 = 0.3;
/// The distance of two offsets.
const APART: f64 = 12.0;

/// A timeline, laid out.
pub struct Timeline<'s> {
    story: &'s Story,
    labels: CallLabels<'s>,
    marks: Marks,
    scale: Scale,
    /// The offsets at which some block begins or ends, rising.
    offsets: Vec<usize>,
    plot: Area,
    column: f64,
}

impl<'s> Timeline<'s> {
    /// Lays out the calls from a place on, in the width of a page.
    pub fn new(story: &'s Story, (x, y): (f64, f64), page: f64) -> Timeline<'s> {
        let steps = story.steps.len().max(1) as f64;
        let w = (steps * COLUMN.1).clamp(page, 2.0 * page);
        let column = (w / steps).min(COLUMN.0);
        let parts = story.spans.iter().map(|span| &span.part);
        let edges = parts.flat_map(|part| [part.offset, part.end()]);
        let offsets: BTreeSet<usize> = edges.chain([0, story.length]).collect();
        let offsets: Vec<usize> = offsets.into_iter().collect();
        let intervals = (offsets.len() - 1) as f64;
        let bands = story.spans.iter().map(|span| span.part.holders().len());
        let bands = bands.max().unwrap_or(0).min(BAND.1);
        let least = LEAST.max(BAND.0 * bands as f64);
        let h = (intervals * least / 0.6).clamp(PLOT.0, PLOT.1);
        let scale = match Scale::new(&offsets, h, least, h) {
            scale if scale.stretched => Scale::new(&offsets, h, least, GREATEST * h),
            scale => scale,
        };
        let labels = CallLabels::new(&story.steps, column);
        let marks = Marks::new(&story.steps, column);
        let y = y + marks.height();
        let w = column * steps;
        Timeline {
            story,
            labels,
            marks,
            plot: Area {
                x,
                y,
                w,
                h: scale.at(story.length),
            },
            scale,
            offsets,
            column,
        }
    }

    /// Its height.
    pub fn height(&self) -> f64 {
        self.marks.height() + self.plot.h + self.labels.height()
    }

    /// The width of its plot.
    pub fn width(&self) -> f64 {
        self.plot.w
    }

    /// Its scale of offsets.
    pub fn scale(&self) -> &Scale {
        &self.scale
    }

    /// Draws it: what is behind first, and the labels last.
    pub fn draw(&self, svg: &mut Svg) {
        let (top, bottom) = (self.plot.y, self.plot.y + self.plot.h);
        svg.rect("plot", self.plot, "");
        self.axis(svg);
        for place in 0..self.story.steps.len() {
            self.marks.stem(svg, place, (self.moment(place), top));
        }
        for place in 0..self.story.steps.len() {
            self.call(svg, place);
        }
        svg.raw(&format!(r#"<g stroke-width="{}">"#, number(self.stroke())));
        let lives = self.lives();
        for (place, span) in self.story.spans.iter().enumerate() {
            svg.titled(&self.words(span), |svg| {
                fill(svg, self.area(span, span.to), &span.part);
                if !lives.contains_key(&place) {
                    let x = self.moment(span.from);
                    let (low, high) = self.levels(span);
                    svg.line("change", (x, high), (x, low));
                }
            });
        }
        for (place, to) in &lives {
            let area = self.area(&self.story.spans[*place], *to);
            self.outline(svg, area, to.is_none());
        }
        svg.raw("</g>");
        for place in 0..self.story.steps.len() {
            self.marks
                .line(svg, place, self.moment(place), (top, bottom));
        }
        svg.raw(r#"<g class="over">"#);
        for (place, span) in self.story.spans.iter().enumerate() {
            self.label(svg, span, lives.contains_key(&place));
        }
        svg.raw("</g>");
    }

    /// The width of outlines: thinner where columns are narrow or blocks are low.
    fn stroke(&self) -> f64 {
        let height = self.plot.h / self.offsets.len() as f64;
        (self.column / 8.0).min(height / 12.0).clamp(0.05, 1.0)
    }

    /// The place of a call from the left.
    fn moment(&self, place: usize) -> f64 {
        self.plot.x + (place as f64 + 0.5) * self.column
    }

    /// The place of an offset from above.
    fn level(&self, offset: usize) -> f64 {
        self.plot.y + self.plot.h - self.scale.at(offset)
    }

    /// The places of a span's offsets from above, the lower offset first.
    fn levels(&self, span: &Span) -> (f64, f64) {
        (self.level(span.part.offset), self.level(span.part.end()))
    }

    /// The area from a call to another, or to the end, over a part of the heap.
    fn area(&self, span: &Span, to: Option<usize>) -> Area {
        let x = self.moment(span.from);
        let end = to.map_or(self.plot.x + self.plot.w, |place| self.moment(place));
        let (low, high) = self.levels(span);
        Area {
            x,
            y: high,
            w: end - x,
            h: low - high,
        }
    }

    /// Draws the offsets at the left.
    fn axis(&self, svg: &mut Svg) {
        let top = self.level(self.story.length);
        let mut free_from = f64::MAX;
        for offset in &self.offsets {
            let y = self.level(*offset);
            let is_end = *offset == self.story.length;
            if is_end || (y <= free_from && y - top >= APART) {
                svg.line(
                    "grid",
                    (self.plot.x - 4.0, y),
                    (self.plot.x + self.plot.w, y),
                );
                svg.text("level", (self.plot.x - 7.0, y + 3.5), &offset.to_string());
                free_from = y - APART;
            } else {
                svg.left_out += 1;
            }
        }
    }

    /// Draws the column of a call: its tick, its label, and its mark if it was refused.
    fn call(&self, svg: &mut Svg, place: usize) {
        let step = &self.story.steps[place];
        let x = self.moment(place);
        let (top, bottom) = (self.plot.y, self.plot.y + self.plot.h);
        let column = Area {
            x: x - self.column / 2.0,
            y: top - self.marks.height(),
            w: self.column,
            h: self.height(),
        };
        svg.titled(&step.hover(), |svg| {
            svg.rect("column", column, "");
            if self.column >= 3.0 {
                svg.line("tick", (x, bottom), (x, bottom + 4.0));
            }
            self.labels.draw(svg, place, (x, bottom + 2.0));
            self.marks.draw(svg, place, step, (x, top));
        });
    }

    /// The spans that begin an object or a wait, each with the place of the call that ended that.
    fn lives(&self) -> BTreeMap<usize, Option<usize>> {
        let mut first: BTreeMap<usize, Option<usize>> = BTreeMap::new();
        let mut latest: BTreeMap<(usize, Option<u32>), usize> = BTreeMap::new();
        for (place, span) in self.story.spans.iter().enumerate() {
            let serial = match span.part.used {
                Use::Object { serial, .. } => Some(serial),
                _ => None,
            };
            let key = (span.part.offset, serial);
            let begun = latest.get(&key).copied();
            let begun = begun.filter(|begun| first.get(begun) == Some(&Some(span.from)));
            let begun = begun.unwrap_or(place);
            latest.insert(key, begun);
            first.insert(begun, span.to);
        }
        first
    }

    /// What is said of a span on hover.
    fn words(&self, span: &Span) -> String {
        let said = |place: usize| {
            let step = &self.story.steps[place];
            format!("line {} ({})", step.line, step.words)
        };
        let to = span.to.map_or("the end".to_owned(), said);
        format!("{}; from {} to {to}", span.part.words(), said(span.from))
    }

    /// Writes what a span is; where it begins an object, with the name of that.
    fn label(&self, svg: &mut Svg, span: &Span, begins: bool) {
        let area = self.area(span, span.to);
        match &span.part.used {
            Use::Free => {}
            Use::Quarantined => svg.label(area, &["quarantined", "waits"].map(str::to_owned)),
            Use::Object { serial, holders } => {
                patterns::label(svg, area, holders, |holder| {
                    match (begins, holder.label()) {
                        (true, holder) => [format!("#{serial} {holder}"), format!("#{serial}")],
                        (false, holder) => [holder.clone(), holder],
                    }
                });
            }
        }
    }

    /// Draws an outline, open at the right where it goes on at the end.
    fn outline(&self, svg: &mut Svg, area: Area, open: bool) {
        let Area { x, y, w, h } = area;
        let (right, low) = (x + w, y + h);
        let mut places = vec![(right, y), (x, y), (x, low), (right, low)];
        if !open {
            places.push((right, y));
        }
        svg.path("outline", &places);
    }
}
