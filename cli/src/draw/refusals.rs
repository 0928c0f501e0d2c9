//! The marks of refused calls above a timeline: a box with the refusal's number, and a dashed line.

use std::collections::BTreeMap;

use crate::draw::story::Step;
use crate::draw::svg::{Area, Svg};

/// The size of a box, the distance of two rows of them, and the most rows.
const WIDTH: f64 = 20.0;
const HEIGHT: f64 = 15.0;
const ROW: f64 = 18.0;
const ROWS: usize = 3;
/// The narrowest column that has a dashed line through the plot.
const LINED: f64 = 4.0;

/// The marks of a timeline's refused calls.
pub struct Marks {
    /// The row of each refused call's box by the call's place; none where no row has room.
    rows: BTreeMap<usize, Option<usize>>,
    column: f64,
}

impl Marks {
    /// The marks of calls in columns of this width, each in the lowest row that has room.
    pub fn new(steps: &[Step], column: f64) -> Marks {
        let mut free_from = [0.0; ROWS];
        let mut rows = BTreeMap::new();
        for (place, step) in steps.iter().enumerate() {
            if step.refusal.is_some() {
                let x = place as f64 * column;
                let row = free_from.iter().position(|free| *free <= x);
                if let Some(row) = row {
                    free_from[row] = x + WIDTH + 3.0;
                }
                rows.insert(place, row);
            }
        }
        Marks { rows, column }
    }

    /// Their height.
    pub fn height(&self) -> f64 {
        let used = self.rows.values().flatten().max().map_or(0, |row| row + 1);
        match self.rows.is_empty() {
            true => 0.0,
            false => used as f64 * ROW + 6.0,
        }
    }

    /// The upper edge of a row's boxes, above a place on the plot's upper edge.
    fn top(row: usize, y: f64) -> f64 {
        y - 4.0 - (row as f64 + 1.0) * ROW + (ROW - HEIGHT)
    }

    /// Draws the line from a refused call's box down to the plot, or a short one where it has no box.
    pub fn stem(&self, svg: &mut Svg, place: usize, (x, y): (f64, f64)) {
        if let Some(row) = self.rows.get(&place) {
            let top = row.map_or(y - 4.0, |row| Marks::top(row, y) + HEIGHT);
            svg.line("refused", (x, top), (x, y));
        }
    }

    /// Draws the box of a refused call above a place on the plot's upper edge.
    pub fn draw(&self, svg: &mut Svg, place: usize, step: &Step, (x, y): (f64, f64)) {
        let (Some(row), Some(refusal)) = (self.rows.get(&place), step.refusal) else {
            return;
        };
        let Some(row) = row else {
            svg.left_out += 1;
            return;
        };
        let area = Area {
            x: x - WIDTH / 2.0,
            y: Marks::top(*row, y),
            w: WIDTH,
            h: HEIGHT,
        };
        svg.rect("badge", area, r#" rx="3""#);
        svg.text("number", (x, area.y + 11.5), &refusal.number().to_string());
    }

    /// Draws the dashed line of a call through the plot, if it was refused and has room.
    pub fn line(&self, svg: &mut Svg, place: usize, x: f64, (top, bottom): (f64, f64)) {
        if self.column >= LINED && self.rows.contains_key(&place) {
            svg.line("dashed", (x, top), (x, bottom));
        }
    }
}
