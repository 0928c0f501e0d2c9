//! What was compared: how many scripts, lines and calls, and how they were answered.

use std::collections::BTreeMap;
use std::fmt;

use crate::judge::cut::{is_narrowed, joins, looks_alive, quarantined};
use crate::judge::forms::FORM_1;
use crate::judge::ledger::unit;
use crate::state::{Answer, Call, State};

/// The counts of one run.
#[derive(Clone, Debug, Default)]
pub struct Tally {
    /// The calls by kind and by refusal, 0 where accepted.
    pub calls: [[u64; 13]; Call::NAMES.len()],
    /// The scripts.
    pub scripts: u64,
    /// The lines of all answers to scripts, by their text: `ok`, `no 1` and so on, `bad`, or the list.
    pub lines: BTreeMap<String, u64>,
    /// Freed blocks that joined a free block in front alone.
    pub joined_front: u64,
    /// Freed blocks that joined a free block behind alone.
    pub joined_behind: u64,
    /// Freed blocks that joined free blocks on both sides.
    pub joined_both: u64,
    /// Freed blocks with no free neighbour.
    pub joined_neither: u64,
    /// Calls on accounts with a count of 255.
    pub full_counts: u64,
    /// Calls on accounts without an unused record.
    pub full_tables: u64,
    /// Calls on accounts that use a record behind those of form 1.
    pub wide_tables: u64,
    /// Accepted calls of a quota behind those of form 1.
    pub high_quotas: u64,
    /// Calls on a heap with quarantined blocks.
    pub waited: u64,
    /// The most quarantined blocks that a heap had.
    pub most_waiting: usize,
    /// Accepted sweeps that made blocks free.
    pub swept: u64,
    /// Calls on a heap of the second edition.
    pub second: u64,
    /// Objects made there whose unit is not that of the first edition.
    pub wider: u64,
    /// Calls whose handle names no object although the bytes before its base look like its header.
    pub look_alikes: u64,
    /// Calls whose handle names an object and has a part of it, by kind and by refusal.
    pub narrowed: [[u64; 13]; Call::NAMES.len()],
    /// Cases by a name of their own: the kinds of damage, and the lists of releases.
    pub cases: BTreeMap<&'static str, u64>,
    /// Images written and read, by refusal, 0 where accepted.
    pub images: BTreeMap<(&'static str, u32), u64>,
}

/// Tells whether a call made an object whose unit differs between the editions.
fn made_wider(call: Call, answer: &Answer) -> bool {
    let makes = matches!(
        call,
        Call::Allocate(..) | Call::Array(..) | Call::Reallocate(..)
    );
    let length = answer.handle().length;
    makes && answer.is_accepted() && unit(0, length) != unit(1, length)
}

impl Tally {
    /// Counts a call that both answered alike.
    pub fn count_call(&mut self, call: Call, before: &State, after: &State, answer: &Answer) {
        let refusal = (answer.refusal as usize).min(12);
        self.calls[call.kind()][refusal] += 1;
        let holds = &before.accounts.holds;
        self.full_counts += u64::from(holds.iter().any(|hold| hold.count == 255));
        self.full_tables += u64::from(holds.iter().all(|hold| hold.is_used()));
        let behind = &holds[FORM_1.records..];
        self.wide_tables += u64::from(behind.iter().any(|hold| hold.is_used()));
        let high = call.quota().is_some_and(|q| q as usize >= FORM_1.quotas);
        self.high_quotas += u64::from(high && answer.is_accepted());
        let forged = call.handle().is_some_and(|h| looks_alive(&before.heap, h));
        self.look_alikes += u64::from(forged);
        let narrowed = call.handle().is_some_and(|h| is_narrowed(&before.heap, h));
        self.narrowed[call.kind()][refusal] += u64::from(narrowed);
        let waiting = quarantined(&before.heap).len();
        self.waited += u64::from(waiting > 0);
        self.most_waiting = self.most_waiting.max(waiting);
        let sweeps = call == Call::Sweep && answer.is_accepted();
        self.swept += u64::from(sweeps && waiting > 0);
        let second = before.accounts.edition == 1;
        self.second += u64::from(second);
        self.wider += u64::from(second && made_wider(call, answer));
        let frees = matches!(
            call,
            Call::Release(..) | Call::FreeAll(_) | Call::Reallocate(..) | Call::Sweep
        );
        if frees && answer.is_accepted() {
            let joins = joins(before, after);
            self.joined_front += joins.front;
            self.joined_behind += joins.behind;
            self.joined_both += joins.both;
            self.joined_neither += joins.neither;
        }
    }

    /// Counts a script and the lines of its answer.
    pub fn count_script(&mut self, output: &[u8]) {
        self.scripts += 1;
        for line in output
            .split(|byte| *byte == b'\n')
            .filter(|l| !l.is_empty())
        {
            let text = String::from_utf8_lossy(line);
            let kind = match text.split(' ').next() {
                Some("ok") => "ok",
                Some("no" | "bad") => &text,
                _ => "listed",
            };
            *self.lines.entry(kind.to_owned()).or_default() += 1;
        }
    }

    /// Counts a case under its name.
    pub fn count_case(&mut self, name: &'static str) {
        *self.cases.entry(name).or_default() += 1;
    }

    /// Counts an image that was written or read.
    pub fn count_image(&mut self, what: &'static str, refusal: u32) {
        *self.images.entry((what, refusal)).or_default() += 1;
    }

    /// Gives how many images were written or read with this refusal, 0 for accepted ones.
    pub fn images(&self, what: &'static str, refusal: u32) -> u64 {
        self.images.get(&(what, refusal)).copied().unwrap_or(0)
    }

    /// Gives the number of calls.
    pub fn all_calls(&self) -> u64 {
        self.calls.iter().flatten().sum()
    }

    /// Gives the number of calls with this refusal, 0 for accepted ones.
    pub fn refused(&self, number: usize) -> u64 {
        self.calls.iter().map(|row| row[number]).sum()
    }

    /// Gives the number of calls of a kind with this refusal, 0 for accepted ones.
    pub fn refused_of(&self, name: &str, number: usize) -> u64 {
        Tally::count_of(&self.calls, name, number)
    }

    /// Gives the number of calls of a kind with a narrowed handle and this refusal, 0 for accepted
    /// ones.
    pub fn narrowed_of(&self, name: &str, number: usize) -> u64 {
        Tally::count_of(&self.narrowed, name, number)
    }

    /// Gives what is counted of a kind of call and a refusal.
    fn count_of(counts: &[[u64; 13]; Call::NAMES.len()], name: &str, number: usize) -> u64 {
        let rows = Call::NAMES.iter().zip(counts);
        let its = rows.filter(|(kind, _)| **kind == name);
        its.map(|(_, row)| row[number]).sum()
    }

    /// Gives the number of lines answered to scripts.
    pub fn all_lines(&self) -> u64 {
        self.lines.values().sum()
    }

    /// Gives the number of lines with this text.
    pub fn lines_of(&self, text: &str) -> u64 {
        self.lines.get(text).copied().unwrap_or(0)
    }
}

/// Writes a part of a whole as a number and a share.
fn share(part: u64, whole: u64) -> String {
    let percent = 100.0 * part as f64 / whole.max(1) as f64;
    format!("{part} ({percent:.1} %)")
}

impl fmt::Display for Tally {
    /// Writes what was compared and how it was answered.
    fn fmt(&self, f: &mut fmt::Formatter<'_>) -> fmt::Result {
        let (calls, lines) = (self.all_calls(), self.all_lines());
        writeln!(
            f,
            "scripts {}, lines answered {lines}, calls {calls}",
            self.scripts
        )?;
        for (text, n) in &self.lines {
            writeln!(f, "  lines '{text}': {}", share(*n, lines))?;
        }
        for ((what, refusal), n) in &self.images {
            writeln!(f, "  images {what}, refusal {refusal}: {n}")?;
        }
        if calls == 0 {
            return Ok(());
        }
        writeln!(f, "  calls accepted: {}", share(self.refused(0), calls))?;
        for number in 1..=12 {
            writeln!(
                f,
                "  calls refused by {number}: {}",
                share(self.refused(number), calls)
            )?;
        }
        let rows = self.calls.iter().zip(&self.narrowed);
        for (name, (row, narrowed)) in Call::NAMES.iter().zip(rows) {
            let all: u64 = row.iter().sum();
            let (accepted, barred) = (share(row[0], all), row[12]);
            let (parts, of_them): (u64, u64) = (narrowed.iter().sum(), narrowed[0]);
            writeln!(
                f,
                "  {name}: {all}, accepted {accepted}, not permitted {barred}, with a narrowed handle {parts}, of them accepted {of_them}"
            )?;
        }
        writeln!(
            f,
            "  freed blocks that joined in front {}, behind {}, on both sides {}, on neither {}",
            self.joined_front, self.joined_behind, self.joined_both, self.joined_neither
        )?;
        writeln!(
            f,
            "  calls with a count of 255: {}, with a full hold table: {}, with a handle to bytes that look like a header: {}",
            self.full_counts, self.full_tables, self.look_alikes
        )?;
        writeln!(
            f,
            "  calls with quarantined blocks: {}, the most of them {}, sweeps that freed some: {}",
            self.waited, self.most_waiting, self.swept
        )?;
        writeln!(
            f,
            "  calls on heaps of the second edition: {}, objects made with a unit of its own: {}",
            self.second, self.wider
        )?;
        write!(
            f,
            "  calls with a used record behind those of form 1: {}, accepted for a quota behind those of form 1: {}",
            self.wide_tables, self.high_quotas
        )
    }
}
