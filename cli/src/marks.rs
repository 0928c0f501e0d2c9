//! The highest and the lowest values over the calls of a script, each with the first line behind which it stood.

use std::fmt::Write;

use lokhazim::{Quota, Statistics};

/// A value and the line behind which it first stood.
type Mark = (usize, usize);

/// The marks so far; none before the first call.
#[derive(Default)]
pub struct Marks {
    live: Option<Mark>,
    quarantined: Option<Mark>,
    free: Option<Mark>,
    request: Option<Mark>,
    records: Option<Mark>,
    /// What each quota has spent at most.
    spent: Vec<Option<Mark>>,
}

/// Keeps the higher value, and of equal ones the first.
fn higher(mark: &mut Option<Mark>, value: usize, line: usize) {
    if mark.is_none_or(|(most, _)| most < value) {
        *mark = Some((value, line));
    }
}

/// Keeps the lower value, and of equal ones the first.
fn lower(mark: &mut Option<Mark>, value: usize, line: usize) {
    if mark.is_none_or(|(least, _)| value < least) {
        *mark = Some((value, line));
    }
}

impl Marks {
    /// Notes the statistics behind a line.
    pub fn note(&mut self, line: usize, now: &Statistics, quotas: &[Quota]) {
        higher(&mut self.live, now.live.bytes, line);
        higher(&mut self.quarantined, now.quarantined.bytes, line);
        lower(&mut self.free, now.free.bytes, line);
        lower(&mut self.request, now.largest_request(), line);
        higher(&mut self.records, now.records, line);
        self.spent.resize(quotas.len(), None);
        for (mark, quota) in self.spent.iter_mut().zip(quotas) {
            let spent = quota.grant.saturating_sub(quota.remainder);
            higher(mark, spent as usize, line);
        }
    }

    /// The marks as lines.
    pub fn table(&self) -> String {
        let mut text = format!("\n{:<28}{:>8}{:>12}\n", "over the script", "", "after line");
        for (name, mark) in [
            ("most live bytes", self.live),
            ("most quarantined bytes", self.quarantined),
            ("fewest free bytes", self.free),
            ("least longest request", self.request),
            ("most records", self.records),
        ] {
            let (value, line) = mark.unwrap_or_default();
            let _ = writeln!(text, "{name:<28}{value:>8}{line:>12}");
        }
        for (quota, mark) in self.spent.iter().enumerate() {
            if let Some((spent @ 1.., line)) = mark {
                let name = format!("most spent by quota {quota}");
                let _ = writeln!(text, "{name:<28}{spent:>8}{line:>12}");
            }
        }
        text
    }
}
