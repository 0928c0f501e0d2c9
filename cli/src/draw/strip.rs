//! The heap as a strip of blocks, in as many rows as its labels need.

use crate::draw::patterns::{self, fill};
use crate::draw::scale::Scale;
use crate::draw::story::{Part, Story, Use};
use crate::draw::svg::{width, Area, Svg};

/// The least width of a block, if all of them have room.
const LEAST: f64 = 36.0;
/// The most rows.
const ROWS: f64 = 34.0;
/// The share of the rows that blocks of the least width may take.
const SHARE: f64 = 0.68;
/// The narrowest body over which a label is centred; above others it has the whole block.
const WIDE: f64 = 120.0;
/// The narrowest header.
const HEADER: f64 = 4.0;
/// The heights of a block, and of what stands above and below it.
const BLOCK: f64 = 46.0;
const ABOVE: f64 = 15.0;
const BELOW: f64 = 25.0;
/// The size of an offset's digits.
const OFFSET: f64 = 10.0;

/// The strip, laid out.
pub struct Strip<'s> {
    story: &'s Story,
    scale: Scale,
    /// The place of the upper left corner and the width of a row.
    at: (f64, f64),
    row: f64,
    rows: usize,
}

/// A piece that is narrower comes from rounding, and is none.
const THIN: f64 = 0.01;

/// A piece of a block: what of it stands in one row.
#[derive(Clone, Copy)]
struct Piece {
    area: Area,
    first: bool,
    last: bool,
}

impl<'s> Strip<'s> {
    /// Lays out the blocks from a place on, in rows of that width.
    pub fn new(story: &'s Story, at: (f64, f64), row: f64) -> Strip<'s> {
        let count = story.parts.len() as f64;
        let rows = (count * LEAST / (SHARE * row)).ceil().clamp(1.0, ROWS);
        let starts = story.parts.iter().map(|part| part.offset);
        let marks: Vec<usize> = starts.chain([story.length]).collect();
        let scale = Scale::new(&marks, rows * row, LEAST, row);
        let rows = (scale.at(story.length) / row - THIN).ceil().max(1.0) as usize;
        Strip {
            story,
            scale,
            at,
            row,
            rows,
        }
    }

    /// Its height.
    pub fn height(&self) -> f64 {
        self.rows as f64 * (ABOVE + BLOCK + BELOW)
    }

    /// Its scale.
    pub fn scale(&self) -> &Scale {
        &self.scale
    }

    /// Draws the blocks and the offsets.
    pub fn draw(&self, svg: &mut Svg) {
        for part in &self.story.parts {
            svg.titled(&part.words(), |svg| self.block(svg, part));
        }
        self.offsets(svg);
    }

    /// The pieces of what stands between two offsets.
    fn pieces(&self, from: usize, to: usize) -> Vec<Piece> {
        let (start, end) = (self.scale.at(from), self.scale.at(to));
        self.pieces_between(start, end)
    }

    /// The pieces of what stands between two places of the rows in one line.
    fn pieces_between(&self, start: f64, end: f64) -> Vec<Piece> {
        let first = ((start + THIN) / self.row) as usize;
        let last = (((end - THIN) / self.row) as usize).min(self.rows - 1);
        let piece = |row: usize| {
            let begins = row as f64 * self.row;
            let x = (start - begins).max(0.0);
            let w = (end - begins).min(self.row) - x;
            let y = self.at.1 + ABOVE + row as f64 * (ABOVE + BLOCK + BELOW);
            let area = Area {
                x: self.at.0 + x,
                y,
                w,
                h: BLOCK,
            };
            Piece {
                area,
                first: row == first,
                last: row == last,
            }
        };
        (first..=last).map(piece).collect()
    }

    /// Draws a block: its fill, its header, its border and its labels.
    fn block(&self, svg: &mut Svg, part: &Part) {
        let pieces = self.pieces(part.offset, part.end());
        for piece in &pieces {
            svg.rect("blank", piece.area, "");
            fill(svg, piece.area, part);
        }
        let start = self.scale.at(part.offset);
        for header in self.pieces_between(start, start + self.header(part)) {
            svg.rect("header", header.area, "");
        }
        for piece in &pieces {
            border(svg, *piece);
        }
        let widest = pieces.iter().max_by(|a, b| a.area.w.total_cmp(&b.area.w));
        if let Some(widest) = widest {
            self.labels(svg, part, *widest);
        }
    }

    /// The width of a block's header.
    fn header(&self, part: &Part) -> f64 {
        let block = self.scale.at(part.end()) - self.scale.at(part.offset);
        match part.size {
            8 => block,
            _ => (8.0 * self.scale.per_byte).clamp(HEADER, HEADER.max(block / 2.0)),
        }
    }

    /// Writes what a block is on its widest piece, beside the header.
    fn labels(&self, svg: &mut Svg, part: &Part, piece: Piece) {
        let mut area = piece.area;
        if piece.first {
            let header = self.header(part).min(area.w);
            area.x += header;
            area.w -= header;
        }
        let beside = if area.w < WIDE { piece.area } else { area };
        let above = Area {
            y: area.y - ABOVE,
            h: ABOVE - 2.0,
            ..beside
        };
        match &part.used {
            Use::Free if part.size == 8 => {}
            Use::Free => svg.label(area, &sized("free", part.size)),
            Use::Quarantined => {
                svg.label(area, &sized("quarantined", part.size));
            }
            Use::Object { serial, holders } => {
                let length = part.size - 8;
                let name = format!("#{serial}");
                let long = format!("{name}, {length} bytes");
                svg.label(above, &[long, name]);
                patterns::label(svg, area, holders, |holder| {
                    [holder.label(), format!("q{}", holder.quota)]
                });
            }
        }
    }

    /// Writes the offsets below the blocks: the heap's end, and where each block begins, as far as
    /// there is room.
    fn offsets(&self, svg: &mut Svg) {
        let end = self.place(self.story.length);
        self.offset(svg, end, self.story.length);
        let end_begins = end.1 - half(self.story.length);
        let mut free_from = vec![f64::MIN; self.rows];
        for part in &self.story.parts {
            let (row, x) = self.place(part.offset);
            let (from, to) = (x - half(part.offset), x + half(part.offset));
            if from >= free_from[row] && (row < end.0 || to <= end_begins) {
                self.offset(svg, (row, x), part.offset);
                free_from[row] = to;
            } else {
                svg.left_out += 1;
            }
        }
    }

    /// Writes an offset below its place.
    fn offset(&self, svg: &mut Svg, (row, x): (usize, f64), offset: usize) {
        let y = self.at.1 + ABOVE + BLOCK + row as f64 * (ABOVE + BLOCK + BELOW);
        svg.line("tick", (x, y), (x, y + 4.0));
        svg.text("offset", (x, y + 14.0), &offset.to_string());
    }

    /// The row of an offset and its place from the left; the heap's end is in the last row.
    fn place(&self, offset: usize) -> (usize, f64) {
        let at = self.scale.at(offset);
        let row = (((at + THIN) / self.row) as usize).min(self.rows - 1);
        (row, self.at.0 + at - row as f64 * self.row)
    }
}

/// Half of the room that an offset takes.
fn half(offset: usize) -> f64 {
    width(&offset.to_string(), OFFSET) / 2.0 + 3.0
}

/// A word with a size, and shorter ways to say it.
fn sized(word: &str, size: usize) -> [String; 3] {
    [
        format!("{word} block of {size} bytes"),
        format!("{word} {size}"),
        size.to_string(),
    ]
}

/// Draws the border of a piece, open where the block goes on in another row.
fn border(svg: &mut Svg, piece: Piece) {
    let Area { x, y, w, h } = piece.area;
    let (left, right, top, bottom) = (x, x + w, y, y + h);
    svg.line("border", (left, top), (right, top));
    svg.line("border", (left, bottom), (right, bottom));
    if piece.first {
        svg.line("border", (left, top), (left, bottom));
    }
    if piece.last {
        svg.line("border", (right, top), (right, bottom));
    }
}
