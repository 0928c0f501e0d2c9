//! What differs between the proved code and the reference, saved to a file that the message names.

use std::fmt;
use std::fs;
use std::path::{Path, PathBuf};

use crate::judge::case::write_case;
use crate::state::{Answer, Call, State};

/// How many differing bytes a saved case names.
const NAMED_BYTES: usize = 16;

/// Why a comparison stopped, in words for whoever reads the log.
#[derive(Clone, Debug)]
pub struct Failure(pub String);

impl fmt::Display for Failure {
    fn fmt(&self, f: &mut fmt::Formatter<'_>) -> fmt::Result {
        f.write_str(&self.0)
    }
}

impl std::error::Error for Failure {}

/// Gives the repository's folder.
pub fn repository() -> PathBuf {
    let tests = Path::new(env!("CARGO_MANIFEST_DIR"));
    tests.parent().unwrap_or(tests).to_path_buf()
}

/// Saves bytes under `build/mismatch/` and gives the file's path.
pub fn save(name: &str, bytes: &[u8]) -> Result<PathBuf, Failure> {
    let folder = repository().join("build/mismatch");
    let file = folder.join(name);
    let saved = fs::create_dir_all(&folder).and_then(|()| fs::write(&file, bytes));
    match saved {
        Ok(()) => Ok(file),
        Err(error) => Err(Failure(format!(
            "a case to be saved could not be written to {}: {error}",
            file.display()
        ))),
    }
}

/// The origin of a case as a part of a file's name.
pub fn file_stem(origin: &str) -> String {
    let letter = |c: char| if c.is_ascii_alphanumeric() { c } else { '-' };
    origin.chars().map(letter).collect()
}

/// A state and an answer as one side left them.
pub struct Left<'a> {
    /// Heap and accounts after the call.
    pub state: &'a State,
    /// The answer.
    pub answer: &'a Answer,
}

/// Says in lines what differs between the proved code and the reference; nothing if they agree.
pub fn differences(proved: &Left, reference: &Left) -> Vec<String> {
    let mut lines = Vec::new();
    if proved.answer != reference.answer {
        lines.push(format!(
            "answer: proved {}, reference {}",
            answer_text(proved.answer),
            answer_text(reference.answer)
        ));
    }
    account_differences(proved.state, reference.state, &mut lines);
    byte_differences(&proved.state.heap, &reference.state.heap, &mut lines);
    lines
}

/// Writes an answer as a refusal or as its numbers.
fn answer_text(answer: &Answer) -> String {
    format!("refusal {}, numbers {:?}", answer.refusal, answer.numbers)
}

/// Names each field of the accounts that differs.
fn account_differences(proved: &State, reference: &State, lines: &mut Vec<String>) {
    let (p, r) = (&proved.accounts, &reference.accounts);
    if p.last_serial != r.last_serial {
        lines.push(format!(
            "last serial: proved {}, reference {}",
            p.last_serial, r.last_serial
        ));
    }
    if p.kind != r.kind {
        lines.push(format!("kind: proved {}, reference {}", p.kind, r.kind));
    }
    if p.edition != r.edition {
        let (p, r) = (p.edition, r.edition);
        lines.push(format!("edition: proved {p}, reference {r}"));
    }
    for (number, (p, r)) in p.quotas.iter().zip(&r.quotas).enumerate() {
        if p != r {
            lines.push(format!("quota {number}: proved {p:?}, reference {r:?}"));
        }
    }
    for (place, (p, r)) in p.holds.iter().zip(&r.holds).enumerate() {
        if p != r {
            lines.push(format!("record {place}: proved {p:?}, reference {r:?}"));
        }
    }
}

/// Names the first bytes of the heap that differ, and how many there are.
fn byte_differences(proved: &[u8], reference: &[u8], lines: &mut Vec<String>) {
    let pairs = proved.iter().zip(reference).enumerate();
    let differing: Vec<_> = pairs.filter(|(_, (p, r))| p != r).collect();
    for (offset, (p, r)) in differing.iter().take(NAMED_BYTES) {
        lines.push(format!(
            "heap byte {offset}: proved {p:02x}, reference {r:02x}"
        ));
    }
    if differing.len() > NAMED_BYTES {
        lines.push(format!("{} bytes of the heap differ", differing.len()));
    }
}

/// Saves a call on which something is wrong and says where it is saved.
pub fn call_failure(origin: &str, before: &State, call: Call, wrong: &[String]) -> Failure {
    let mut text = format!("# {origin}\n");
    for line in wrong {
        text.push_str(&format!("# {line}\n"));
    }
    text.push_str("# Make it again with: build/cargo/debug/fuzz again FILE\n");
    text.push_str(&write_case(before, call));
    match save(&format!("call-{}.txt", file_stem(origin)), text.as_bytes()) {
        Ok(file) => Failure(format!(
            "{origin}: the call '{call}' is wrong: {}. The case is saved in {}",
            wrong.join("; "),
            file.display()
        )),
        Err(failure) => failure,
    }
}
