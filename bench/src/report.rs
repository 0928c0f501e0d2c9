//! The tables of the four calls: figures of the programs side by side, with their ratios.

use crate::figures::{Call, Figure, CALLS};
use crate::peer::About;
use crate::plan::{Shape, LIVE_COUNTS, SHARED};
use crate::table::table;

/// Two places among the numbers of live objects.
#[derive(Clone, Copy)]
pub struct Span {
    /// The place of the smaller number.
    pub from: usize,
    /// The place of the greater number.
    pub to: usize,
}

/// The spans over which growth is shown and judged: to 128 objects, and from there to the most.
pub const SPANS: [Span; 2] = [Span { from: 0, to: 2 }, Span { from: 2, to: 3 }];

/// A program's figures: for each shape, one of each call.
pub type Grid<F> = Vec<[F; CALLS]>;

/// The figures of a program beside the proved calls.
pub struct Other<F> {
    /// What it is.
    pub about: &'static About,
    /// Its figures, for each number of live objects.
    pub grid: Grid<F>,
}

/// The figures of all programs in one unit.
pub struct Report<F> {
    /// The unit of the figures, for the aims.
    pub unit: &'static str,
    /// The proved calls, for each number of live objects.
    pub proved: Grid<F>,
    /// The proved calls on objects with several holders, for each shape of [`SHARED`].
    pub shared: Grid<F>,
    /// The other programs that were there.
    pub others: Vec<Other<F>>,
}

impl<F: Figure> Report<F> {
    /// Writes the table of all programs. In brackets stands how often a figure goes into that of the proved call.
    pub fn table(&self) -> String {
        let mut heads = vec!["call", "live", "proved"];
        heads.extend(self.others.iter().map(|other| other.about.title));
        let places = Call::ALL.map(|call| (0..LIVE_COUNTS.len()).map(move |place| (call, place)));
        let rows: Vec<Vec<String>> = places
            .into_iter()
            .flatten()
            .map(|(call, place)| self.row(call, place))
            .collect();
        table(&heads, &rows)
    }

    /// Gives the row of a call at a number of live objects.
    fn row(&self, call: Call, place: usize) -> Vec<String> {
        let live = LIVE_COUNTS[place].to_string();
        let mut row = vec![call.name().to_string(), live];
        row.push(self.proved[place][call as usize].to_string());
        for other in &self.others {
            row.push(match self.ratio(other, call, place) {
                Some(ratio) => format!("{} ({ratio:.2})", other.grid[place][call as usize]),
                None => "-".to_string(),
            });
        }
        row
    }

    /// Writes the table of objects with several holders, beside as many records of objects with one.
    pub fn shared_table(&self) -> String {
        let heads = ["call", "records", "1 holder", "4 holders", "ratio"];
        let mut rows = Vec::new();
        for call in Call::ALL {
            for (place, shape) in SHARED.into_iter().enumerate() {
                let alone = &self.proved[same_records(shape)][call as usize];
                let shared = &self.shared[place][call as usize];
                rows.push(vec![
                    call.name().to_string(),
                    shape.records().to_string(),
                    alone.to_string(),
                    shared.to_string(),
                    format!("{:.2}", shared.value() / alone.value()),
                ]);
            }
        }
        table(&heads, &rows)
    }

    /// Gives the ratio of the proved call to another program's; none where that has no such call.
    pub fn ratio(&self, other: &Other<F>, call: Call, place: usize) -> Option<f64> {
        let has_call = other.about.has_claims || call != Call::Claim;
        let (above, below) = (&self.proved[place], &other.grid[place]);
        has_call.then(|| above[call as usize].value() / below[call as usize].value())
    }

    /// Gives how the proved call grows over a span.
    pub fn growth(&self, call: Call, span: Span) -> f64 {
        let (below, above) = (&self.proved[span.from], &self.proved[span.to]);
        above[call as usize].value() / below[call as usize].value()
    }
}

/// Gives the place among the live counts of as many records.
fn same_records(shape: Shape) -> usize {
    let same = |live: &usize| *live == shape.records();
    let place = LIVE_COUNTS.iter().position(same);
    place.expect("SHARED has the records of live counts")
}
