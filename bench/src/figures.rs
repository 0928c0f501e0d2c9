//! The calls that are measured, and their figures.

use std::fmt;

use crate::table::grouped;

/// How many kinds of call are measured.
pub const CALLS: usize = 4;

/// A kind of call.
#[derive(Clone, Copy, Debug, PartialEq, Eq)]
pub enum Call {
    /// A new object.
    Allocate,
    /// The release of an object, which frees it.
    Release,
    /// One more hold on an object by the quota that holds it.
    Claim,
    /// A new object for an old one.
    Reallocate,
}

impl Call {
    /// All of them, in the order of the tables.
    pub const ALL: [Call; CALLS] = [Call::Allocate, Call::Release, Call::Claim, Call::Reallocate];

    /// Their names.
    pub const NAMES: [&str; CALLS] = ["allocate", "release", "claim", "reallocate"];

    /// Gives the name in the tables.
    pub fn name(self) -> &'static str {
        Call::NAMES[self as usize]
    }
}

/// A figure of a table: it can be shown, and has a value to compare.
pub trait Figure: fmt::Display {
    /// Gives the value that ratios go by.
    fn value(&self) -> f64;
}

/// What several rounds measured.
#[derive(Clone, Copy, Debug, PartialEq)]
pub struct Summary {
    /// The middle value.
    pub median: f64,
    /// From the end of the first quarter of the sorted values to the start of the last.
    pub spread: f64,
}

impl Summary {
    /// Sums up at least one value.
    pub fn new(mut values: Vec<f64>) -> Summary {
        values.sort_by(f64::total_cmp);
        let last = values.len() - 1;
        Summary {
            median: values[last / 2],
            spread: values[last * 3 / 4] - values[last / 4],
        }
    }
}

impl Figure for Summary {
    fn value(&self) -> f64 {
        self.median
    }
}

impl fmt::Display for Summary {
    fn fmt(&self, f: &mut fmt::Formatter<'_>) -> fmt::Result {
        f.pad(&grouped(self.median))
    }
}

/// Instructions per call.
#[derive(Clone, Copy, Debug, PartialEq)]
pub struct Count(pub f64);

impl Figure for Count {
    fn value(&self) -> f64 {
        self.0
    }
}

impl fmt::Display for Count {
    fn fmt(&self, f: &mut fmt::Formatter<'_>) -> fmt::Result {
        f.pad(&grouped(self.0))
    }
}

#[cfg(test)]
mod tests {
    use super::*;

    #[test]
    fn a_summary_has_median_and_spread() {
        let summary = Summary::new(vec![5.0, 1.0, 9.0, 3.0, 7.0]);
        let expected = Summary {
            median: 5.0,
            spread: 4.0,
        };
        assert_eq!(summary, expected);
        assert_eq!(format!("{summary:>4}"), "   5");
    }
}
