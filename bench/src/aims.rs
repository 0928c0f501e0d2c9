//! The aims, and whether they are met.

use crate::figures::{Call, Count, Figure};
use crate::peer::MCHECK;
use crate::plan::LIVE_COUNTS;
use crate::report::{Report, SPANS};
use crate::serials::Slowed;
use crate::table::{grouped, table};

/// The greatest ratio to the reference.
const REFERENCE: f64 = 1.0;

/// The greatest ratio to glibc under `mcheck_pedantic`, and the place among the live counts at which it is judged.
const PEER: [(usize, f64); 2] = [(2, 4.0), (3, 3.0)];

/// The greatest growth over each span of live objects. From 128 on it is that of the objects.
const GROWTH: [f64; 2] = [6.0, 4.0];

/// The most instructions at the fewest live objects.
const FEWEST: f64 = 2_600.0;

/// The greatest ratio of the worst serials to serials in a row.
const WORST: f64 = 8.0;

/// A figure and where it was met.
struct Case {
    value: f64,
    place: String,
}

/// A row of the table of aims.
pub type Row = Vec<String>;

/// Writes the table of the aims.
pub fn aims_table(rows: &[Row]) -> String {
    table(&["aim", "by", "", "greatest, or all that miss"], rows)
}

/// Gives a row for each aim that is judged by time and by instructions.
pub fn judged<F: Figure>(report: &Report<F>) -> Vec<Row> {
    let mut rows = Vec::new();
    let unit = report.unit;
    let to = |title: &str, places: &[usize]| {
        let other = report.others.iter().find(|o| o.about.title == title);
        let ratio = |call, place| other.and_then(|other| report.ratio(other, call, place));
        cases(ratio, places)
    };
    for (place, most) in PEER {
        let aim = format!("at most {most:.1} of {MCHECK} at {}", LIVE_COUNTS[place]);
        rows.push(row(&aim, unit, most, to(MCHECK, &[place])));
    }
    let every: Vec<usize> = (0..LIVE_COUNTS.len()).collect();
    let aim = "at most 1.0 of the reference";
    rows.push(row(aim, unit, REFERENCE, to("reference", &every)));
    for (span, most) in SPANS.into_iter().zip(GROWTH) {
        let (from, to) = (LIVE_COUNTS[span.from], LIVE_COUNTS[span.to]);
        let grown = cases(|call, _| Some(report.growth(call, span)), &[span.to]);
        let aim = format!("growth from {from} to {to} at most {most:.1}");
        rows.push(row(&aim, unit, most, grown));
    }
    rows
}

/// Gives the row of the most instructions at the fewest live objects.
pub fn judged_fewest(report: &Report<Count>) -> Row {
    let value = |call: Call, place: usize| Some(report.proved[place][call as usize].value());
    let (aim, live) = (grouped(FEWEST), LIVE_COUNTS[0]);
    let aim = format!("at most {aim} at {live}");
    row(&aim, report.unit, FEWEST, cases(value, &[0]))
}

/// Gives the row of the worst serials.
pub fn judged_worst(slowed: &[Slowed]) -> Row {
    let cases = slowed.iter().flat_map(|slowed| {
        let case = |(name, ratio): (&str, f64)| Case {
            value: ratio,
            place: format!("{name} at {}", slowed.live),
        };
        slowed.ratios().map(case).collect::<Vec<Case>>()
    });
    let aim = "worst serials at most 8.0 of a row";
    row(aim, "instructions", WORST, cases.collect())
}

/// Gives the cases of every call, at some places among the live counts.
fn cases(value: impl Fn(Call, usize) -> Option<f64>, places: &[usize]) -> Vec<Case> {
    let mut cases = Vec::new();
    for call in Call::ALL {
        for place in places.iter().copied() {
            let place_name = format!("{} at {}", call.name(), LIVE_COUNTS[place]);
            cases.extend(value(call, place).map(|value| Case {
                value,
                place: place_name,
            }));
        }
    }
    cases
}

/// Gives the row of an aim. One that is missed names every case that misses it.
fn row(aim: &str, unit: &str, limit: f64, mut cases: Vec<Case>) -> Row {
    cases.sort_by(|a, b| b.value.total_cmp(&a.value));
    let missed = cases.iter().filter(|case| case.value > limit).count();
    let verdict = match (cases.is_empty(), missed) {
        (true, _) => "not judged",
        (_, 0) => "met",
        _ => "MISSED",
    };
    let shown = cases.iter().take(missed.max(1)).map(Case::text);
    let shown: Vec<String> = shown.collect();
    [aim, unit, verdict, &shown.join(", ")]
        .map(str::to_string)
        .to_vec()
}

impl Case {
    /// Writes the figure and the place.
    fn text(&self) -> String {
        let Case { value, place } = self;
        match *value < 100.0 {
            true => format!("{value:.2} ({place})"),
            false => format!("{} ({place})", grouped(*value)),
        }
    }
}

#[cfg(test)]
mod tests {
    use super::*;
    use crate::peer::{ABOUT_REFERENCE, PEERS};
    use crate::report::Other;

    /// A report in which every figure of a program is the same, but for growth.
    fn report(proved: [f64; 4], peer: Option<f64>) -> Report<Count> {
        let grid = |n| vec![[Count(n); 4]; 4];
        let mut others = vec![Other {
            about: &ABOUT_REFERENCE,
            grid: grid(400.0),
        }];
        others.extend(peer.map(|n| Other {
            about: &PEERS[0],
            grid: grid(n),
        }));
        Report {
            unit: "instructions",
            proved: proved.map(|n| [Count(n); 4]).to_vec(),
            shared: grid(1.0),
            others,
        }
    }

    /// How many rows have a verdict.
    fn count(rows: &[Row], verdict: &str) -> usize {
        rows.iter().filter(|row| row[2] == verdict).count()
    }

    #[test]
    fn aims_that_are_just_met() {
        let rows = judged(&report([20.0, 50.0, 100.0, 75.0], Some(25.0)));
        assert_eq!(count(&rows, "met"), 5, "{rows:?}");
    }

    #[test]
    fn aims_that_are_missed_name_every_case() {
        let rows = judged(&report([10.0, 50.0, 101.0, 408.0], Some(25.0)));
        assert_eq!(count(&rows, "MISSED"), 5, "{rows:?}");
        assert!(rows[2][3].contains("1.02 (reallocate at 512)"), "{rows:?}");
    }

    #[test]
    fn an_aim_without_figures_is_not_judged() {
        let rows = judged(&report([10.0, 20.0, 30.0, 40.0], None));
        assert_eq!(count(&rows, "not judged"), 2, "{rows:?}");
    }

    #[test]
    fn the_fewest_objects_have_an_aim_of_their_own() {
        let verdict = |n| judged_fewest(&report([n; 4], None))[2].clone();
        assert_eq!([verdict(2_600.0), verdict(2_601.0)], ["met", "MISSED"]);
    }
}
