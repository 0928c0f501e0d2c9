//! A log of `rt must-fail` or `rt ci`: where each edit was refused first.

use crate::declared::Declaration;
use crate::edits::Tried;
use crate::wrong::{Place, Wrong};
use std::collections::HashSet;

/// A file of a crate and a line of it.
type At<'a> = (&'a str, usize);

/// The edit that a line of the log has as refused, as `crate/label`, and the file and line of its first error. Only a limit
/// of the prover may have none: `rt: must-fail words/adds.edit: refused, as it must be: ./proofs/A.antt:2:5: error: ..`, or `note:
/// src/lib.rt:2:5: ..`.
fn first_error(line: &str) -> Option<(&str, Option<At<'_>>)> {
    let (_, rest) = line.split_once("must-fail ")?;
    let (label, rest) = rest.split_once(".edit: refused, as it must be")?;
    let found = rest.split_whitespace().find_map(at);
    (found.is_some() || rest.starts_with(" (only by a limit")).then_some((label, found))
}

/// A word such as `./proofs/A.antt:2:5:` as a place.
fn at(word: &str) -> Option<At<'_>> {
    let mut parts = word.strip_suffix(':')?.rsplitn(3, ':');
    let (column, line, file) = (parts.next()?, parts.next()?, parts.next()?);
    column.parse::<usize>().ok()?;
    Some((file.strip_prefix("./").unwrap_or(file), line.parse().ok()?))
}

/// What is declared at a line of a file, or above it.
fn declared_at(all: &[Declaration], file: &str, line: usize) -> String {
    let mut above = all
        .iter()
        .filter(|found| found.file == file && found.line <= line);
    above
        .next_back()
        .map(|found| found.name.clone())
        .unwrap_or_default()
}

/// The place of an edit's first error, with the fact that is declared there.
fn place(label: &str, (file, line): At, all: &[Declaration]) -> Place {
    let of = label.split('/').next().unwrap_or_default();
    Place {
        file: file.to_string(),
        fact: declared_at(all, &format!("crates/{of}/{file}"), line),
    }
}

/// Whether a place is where the edit says. Where one of the two is at the function's source, or the edit names a goal of an
/// older kit's proof, the function is compared: rt names the source of a goal that no proof file answers, and today's goals
/// have other names than those.
pub fn agrees(said: &Place, found: &Place) -> bool {
    let of_source = said.is_of_source() || found.is_of_source();
    said == found
        || (of_source || said.is_of_older_proof())
            && said.function().is_some()
            && said.function() == found.function()
}

/// The places of the first errors that a log has, by edits.
pub fn found(text: &str, all: &[Declaration]) -> Vec<(String, Place)> {
    let errors = text.lines().filter_map(first_error);
    errors
        .filter_map(|(label, at)| Some((label.to_string(), place(label, at?, all))))
        .collect()
}

/// How many first errors were compared, and every difference.
pub fn compare(
    name: &str,
    text: &str,
    tried: Tried,
    wrong: &Wrong,
    all: &[Declaration],
) -> (String, Vec<String>) {
    let mut seen = HashSet::new();
    let mut bad = Vec::new();
    let mut compared = 0;
    for (label, at) in text.lines().filter_map(first_error) {
        let Some((_, said)) = wrong.firsts.get(label).filter(|first| first.0 == tried) else {
            bad.push(format!("{name}: {label} is no edit that is tried there."));
            continue;
        };
        seen.insert(label);
        let Some(found) = at.map(|at| place(label, at, all)) else {
            continue;
        };
        compared += 1;
        if !agrees(said, &found) {
            let differ = format!("but the log says \"{} {}\"", found.file, found.fact);
            bad.push(format!(
                "{label}: refused at \"{} {}\", {differ}.",
                said.file, said.fact
            ));
        }
    }
    let mut lost: Vec<&String> = wrong
        .firsts
        .iter()
        .filter(|(_, first)| first.0 == tried)
        .map(|(label, _)| label)
        .collect();
    lost.retain(|label| !seen.contains(label.as_str()));
    lost.sort();
    bad.extend(
        lost.iter()
            .map(|label| format!("{label}: {name} has no first error of it.")),
    );
    (
        format!(
            "{compared} first errors compared, of {} edits",
            wrong.tried(tried)
        ),
        bad,
    )
}

#[cfg(test)]
mod tests {
    use super::*;
    use crate::declared::of_text;

    const LINE: &str =
        "rt: must-fail words/adds.edit: refused, as it must be: ./proofs/A.antt:2:5: error: `one`: no";

    #[test]
    fn a_line_of_the_log() {
        assert_eq!(
            first_error(LINE),
            Some(("words/adds", Some(("proofs/A.antt", 2))))
        );
        let note = "rt: must-fail words/a.edit: refused, as it must be (only by a limit, so): note: src/lib.rt:7:1: it is";
        assert_eq!(
            first_error(note),
            Some(("words/a", Some(("src/lib.rt", 7))))
        );
        let bare = "rt: must-fail words/a.edit: refused, as it must be";
        assert_eq!(first_error(bare), None);
        let limit = format!("{bare} (only by a limit of the prover): out of steps");
        assert_eq!(first_error(&limit), Some(("words/a", None)));
        assert_eq!(first_error("rt: words proved"), None);
    }

    #[test]
    fn a_goal_of_an_older_proof_is_compared_by_its_function() {
        let of = |file: &str, fact: &str| Place {
            file: file.to_string(),
            fact: fact.to_string(),
        };
        let said = of("proofs/writers/charge/Proof.antt", "returns-3");
        assert!(agrees(&said, &of("src/writers.rt", "Words::charge")));
        assert!(agrees(
            &said,
            &of("proofs/writers/charge/Answers.antt", "returns")
        ));
        assert!(!agrees(&said, &of("src/writers.rt", "refund")));
        assert!(!agrees(&said, &of("proofs/Rows.antt", "charge")));
        let today = of("proofs/writers/charge/Answers.antt", "returns");
        assert!(agrees(&today, &of("src/writers.rt", "charge")));
        assert!(!agrees(
            &today,
            &of("proofs/writers/charge/Answers.antt", "loop-i-preserved")
        ));
    }

    #[test]
    fn first_errors_are_held_to_what_edits_say() {
        let all = of_text(
            "crates/words/proofs/A.antt",
            "one : A → B\none a = a\nother : B\n",
        );
        let mut wrong = Wrong::default();
        let place = |fact: &str| Place {
            file: "proofs/A.antt".to_string(),
            fact: fact.to_string(),
        };
        wrong
            .firsts
            .insert("words/adds".to_string(), (Tried::Gate, place("one")));
        assert_eq!(compare("log", LINE, Tried::Gate, &wrong, &all).1, [""; 0]);
        wrong
            .firsts
            .insert("words/adds".to_string(), (Tried::Gate, place("two")));
        wrong
            .firsts
            .insert("words/lost".to_string(), (Tried::Gate, place("one")));
        let bad = compare("log", LINE, Tried::Gate, &wrong, &all).1;
        assert_eq!(
            bad[0],
            "words/adds: refused at \"proofs/A.antt two\", but the log says \"proofs/A.antt one\"."
        );
        assert_eq!(bad[1], "words/lost: log has no first error of it.");
    }
}
