//! What the hatches and the marks of a picture mean.

use lokhazim::{Permissions, Quota};

use crate::draw::patterns::{of_quota, WAITS};
use crate::draw::story::{Source, Story};
use crate::draw::svg::{Area, Svg};

/// The height of a row and the size of a sample.
const ROW: f64 = 23.0;
const SAMPLE: (f64, f64) = (30.0, 16.0);
/// The width of a letter, on the average of a long text.
const LETTER: f64 = 7.0;

/// What is shown beside an entry's words.
enum Sample {
    Holder(u8),
    Serial,
    Count,
    Header,
    Free,
    Waits,
    Refusal,
}

/// The entries of a legend, in the order in which they stand.
pub struct Legend {
    entries: Vec<(Sample, String)>,
    page: f64,
    columns: usize,
}

/// What a quota was given and what it has left.
fn quota_words(number: u8, quota: &Quota) -> String {
    let Quota {
        grant, remainder, ..
    } = quota;
    let mut words = format!("q{number}: quota {number}, {grant} granted, {remainder} left");
    let lacks = |permission: Permissions| quota.permissions & permission.bits() == 0;
    let lacking = [
        (Permissions::ALLOCATE, "allocate"),
        (Permissions::CLAIM, "claim"),
        (Permissions::FREE_ALL, "free all"),
    ];
    let lacking: Vec<&str> = lacking
        .into_iter()
        .filter(|(permission, _)| lacks(*permission))
        .map(|(_, word)| word)
        .collect();
    if !lacking.is_empty() {
        words = format!("{words}; may not {}", lacking.join(", "));
    }
    words
}

impl Legend {
    /// The legend of a story in the width of a page: in two columns, if every entry has room in one.
    pub fn new(story: &Story, page: f64) -> Legend {
        let quotas = story.holders().into_iter().map(|number| {
            let quota = &story.accounts.quotas[usize::from(number)];
            (Sample::Holder(number), quota_words(number, quota))
        });
        let mut entries: Vec<(Sample, String)> = quotas.collect();
        let mut add = |sample, words: &str| entries.push((sample, words.to_owned()));
        if !story.holders().is_empty() {
            add(Sample::Serial, "the object with serial n");
        }
        if story.has_counts() {
            add(Sample::Count, "held n times by the same quota");
        }
        add(Sample::Free, "free");
        if story.has_quarantined() {
            add(Sample::Waits, "quarantined: waits for a sweep");
        }
        add(Sample::Header, "header of a block, 8 bytes");
        if story.source == Source::Script && story.refused() > 0 {
            add(
                Sample::Refusal,
                "a refused call with the refusal\u{2019}s number",
            );
        }
        let letters = entries.iter().map(|(_, words)| words.chars().count());
        let longest = letters.max().unwrap_or(0) as f64 * LETTER;
        let columns = if longest + 2.0 * SAMPLE.0 <= page / 2.0 {
            2
        } else {
            1
        };
        Legend {
            entries,
            page,
            columns,
        }
    }

    /// The rows of a column.
    fn rows(&self) -> usize {
        self.entries.len().div_ceil(self.columns)
    }

    /// Its height.
    pub fn height(&self) -> f64 {
        self.rows() as f64 * ROW
    }

    /// Draws it from a place on.
    pub fn draw(&self, svg: &mut Svg, (x, y): (f64, f64)) {
        for (place, (sample, words)) in self.entries.iter().enumerate() {
            let (column, row) = (place / self.rows(), place % self.rows());
            let x = x + self.page / self.columns as f64 * column as f64;
            let y = y + ROW * row as f64;
            let (w, h) = SAMPLE;
            draw_sample(svg, sample, Area { x, y, w, h });
            svg.text("legend", (x + w + 9.0, y + 12.5), words);
        }
    }
}

/// Draws a sample.
fn draw_sample(svg: &mut Svg, sample: &Sample, area: Area) {
    match sample {
        Sample::Holder(quota) => svg.rect("sample", area, &of_quota(*quota)),
        Sample::Serial => in_middle(svg, area, "#n"),
        Sample::Count => in_middle(svg, area, "\u{d7}n"),
        Sample::Waits => svg.rect("sample", area, WAITS),
        Sample::Free => svg.rect("sample", area, r##" fill="#fff""##),
        Sample::Header => {
            svg.rect("sample", area, r##" fill="#fff""##);
            svg.rect("header", Area { w: 8.0, ..area }, "");
        }
        Sample::Refusal => {
            let (x, y) = area.middle();
            svg.line("dashed", (area.x, y), (area.x + area.w, y));
            let badge = Area {
                x: x - 10.0,
                w: 20.0,
                ..area
            };
            svg.rect("badge", badge, r#" rx="3""#);
            svg.text("number", (x, y + 4.0), "n");
        }
    }
}

/// Writes a sample that is a text.
fn in_middle(svg: &mut Svg, area: Area, words: &str) {
    let (x, y) = area.middle();
    svg.text("mark", (x, y + 4.0), words);
}
