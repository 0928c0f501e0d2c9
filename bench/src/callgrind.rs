//! Instructions per call, counted by valgrind's tool callgrind.
//!
//! Counting is on inside `measured_round` only. Callgrind's file then has, for each place in it that
//! calls `call_allocate` or its like, how often it does and the instructions of these calls in all.

use std::fs::{self, File};
use std::path::{Path, PathBuf};
use std::process::{Command, Stdio};

use crate::figures::Count;

/// The function that runs a counted round, here and in C.
const ROUND: &str = "measured_round";

/// The folder in which callgrind's files are kept.
pub struct Callgrind {
    folder: PathBuf,
}

/// A program to be counted.
pub struct Counted<'a> {
    /// A name for its files.
    pub name: String,
    /// The program.
    pub program: &'a Path,
    /// Its arguments.
    pub arguments: Vec<String>,
    /// A library that it is run with.
    pub preload: Option<&'a Path>,
    /// Its input.
    pub input: String,
    /// The names of the calls that it makes.
    pub calls: &'a [&'a str],
}

impl Callgrind {
    /// Gives none if valgrind is not installed.
    pub fn find(folder: PathBuf) -> Option<Callgrind> {
        let mut version = Command::new("valgrind");
        version.arg("--version").stdout(Stdio::null());
        match version.status() {
            Ok(status) if status.success() => Some(Callgrind { folder }),
            _ => None,
        }
    }

    /// Counts the instructions per call of a program.
    pub fn count(&self, counted: &Counted) -> Result<Vec<Count>, String> {
        let name = &counted.name;
        let output = self.folder.join(format!("{name}.callgrind"));
        let input = self.folder.join(format!("{name}.input"));
        let trouble = |error: std::io::Error| format!("counting {name}: {error}");
        fs::write(&input, &counted.input).map_err(trouble)?;
        let mut command = Command::new("valgrind");
        command
            .args(["--tool=callgrind", "--quiet", "--compress-strings=no"])
            .arg("--compress-pos=no")
            .arg(format!("--toggle-collect=*{ROUND}*"))
            .arg(format!("--callgrind-out-file={}", output.display()))
            .arg(counted.program)
            .args(&counted.arguments)
            .stdin(File::open(&input).map_err(trouble)?)
            .stdout(Stdio::null());
        if let Some(preload) = counted.preload {
            command.env("LD_PRELOAD", preload);
        }
        let status = command.status().map_err(trouble)?;
        if !status.success() {
            return Err(format!("valgrind on {name} ended with {status}"));
        }
        let text = fs::read_to_string(&output).map_err(trouble)?;
        per_call(&text, counted.calls).ok_or_else(|| format!("{} lacks a call", output.display()))
    }
}

/// Reads instructions per call out of callgrind's file; none if a call does not occur.
fn per_call(text: &str, calls: &[&str]) -> Option<Vec<Count>> {
    let names: Vec<String> = calls.iter().map(|call| format!("call_{call}")).collect();
    let mut times = vec![0.0; names.len()];
    let mut costs = vec![0.0; names.len()];
    let mut callee = None;
    let mut measured = false;
    let mut lines = text.lines();
    while let Some(line) = lines.next() {
        if let Some(function) = line.strip_prefix("fn=") {
            measured = function.contains(ROUND);
        } else if let Some(function) = line.strip_prefix("cfn=") {
            // A function's name may be mangled.
            let named = names.iter().position(|name| function.contains(name));
            callee = named.filter(|_| measured);
        } else if let Some(calls) = line.strip_prefix("calls=") {
            let cost = lines.next()?;
            if let Some(call) = callee {
                times[call] += number(calls.split(' ').next()?)?;
                costs[call] += number(cost.split(' ').nth(1)?)?;
            }
        }
    }
    let counts = costs.iter().zip(&times).map(|(cost, times)| cost / times);
    let counts: Vec<Count> = counts.map(Count).collect();
    counts.iter().all(|n| n.0.is_finite()).then_some(counts)
}

/// Reads a number.
fn number(word: &str) -> Option<f64> {
    word.parse().ok()
}

#[cfg(test)]
mod tests {
    use super::*;

    const FILE: &str = "\
fn=bench::measured_round
12 5
cfn=<bench::Proved as bench::Engine>::call_allocate
calls=2 40
13 100
cfn=<bench::Proved as bench::Engine>::call_claim
calls=4 50
14 100
cfn=clock_gettime
calls=9 1
15 9000
cfn=_ZN5bench12call_release17h0E
calls=1 60
16 30
cfn=call_reallocate
calls=1 70
17 70
calls=1 70
18 80
fn=bench::other
cfn=call_reallocate
calls=1 80
19 1
";

    const CALLS: [&str; 4] = ["allocate", "release", "claim", "reallocate"];

    #[test]
    fn costs_are_shared_among_the_calls() {
        let expected = [50.0, 30.0, 25.0, 75.0].map(Count).to_vec();
        assert_eq!(per_call(FILE, &CALLS), Some(expected));
    }

    #[test]
    fn a_call_that_does_not_occur_is_noticed() {
        assert_eq!(
            per_call(
                "fn=measured_round\ncfn=call_allocate\ncalls=1 2\n3 4\n",
                &CALLS
            ),
            None
        );
    }
}
