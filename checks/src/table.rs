//! The table of wrong programs.

use crate::edits::Tried;
use crate::wrong::{Row, Wrong};
use std::fmt::Write as _;
use std::fs;
use std::path::Path;

/// Rows that would be wider have their last two cells in a row below.
const WIDEST: usize = 180;

/// Writes a file, and the folder that it is in.
pub fn write(path: &str, text: &str) -> Result<(), Vec<String>> {
    let folder = Path::new(path).parent().unwrap_or(Path::new("."));
    fs::create_dir_all(folder)
        .and_then(|()| fs::write(path, text))
        .map_err(|error| vec![format!("{path}: {error}")])
}

/// The whole table, by crates.
pub fn text(wrong: &Wrong, crates: &[String]) -> String {
    let mut out = head(wrong);
    for of in crates {
        let mut rows = String::new();
        for function in wrong.functions.iter().filter(|function| function.of == *of) {
            let name = function.name.split_once("::").map_or("", |(_, name)| name);
            put_rows(&mut rows, wrong, of, &function.name, &format!("`{name}`"));
        }
        for name in wrong.definitions.get(of).into_iter().flatten() {
            put_rows(&mut rows, wrong, of, name, &format!("definition `{name}`"));
        }
        if !rows.is_empty() {
            let heads = "| function or definition | wrong program | tried by | what is false | refused at |";
            let _ = write!(out, "\n## {of}\n\n{heads}\n|---|---|---|---|---|\n{rows}");
        }
    }
    out
}

fn put_rows(out: &mut String, wrong: &Wrong, of: &str, name: &str, shown: &str) {
    let key = (of.to_string(), name.to_string());
    for (at, row) in wrong.rows.get(&key).into_iter().flatten().enumerate() {
        let cell = if at == 0 {
            format!("{shown} ")
        } else {
            String::new()
        };
        put_row(out, &cell, row);
    }
}

fn put_row(out: &mut String, cell: &str, row: &Row) {
    let front = format!("| {cell}| `{}` | {} |", row.label, row.tried.by());
    let facts = format!("{} | {} |", row.falsity, row.refused);
    let wide = front.chars().count() + 1 + facts.chars().count() > WIDEST;
    let joint = if wide { " | |\n| | | | " } else { " " };
    let _ = writeln!(out, "{front}{joint}{facts}");
}

fn head(wrong: &Wrong) -> String {
    format!(
        "# Wrong programs\n\n\
         The gate writes this file from the first three lines of the edits in `crates/*/must-fail/` and `wrong/*/`.\n\n\
         Each row is a small edit that makes a crate wrong; the prover rejects it. The gate (`make test`) tries {} of them,\n\
         `make wrong` the other {}, since each proves its whole crate again. Each of the {} public functions has two or more;\n\
         one edit may break several. Where the first column has a function that is not public, callers would see no\n\
         difference: the edit breaks a contract inside the crate. A wrong definition is refused at a computed row or refutation.\n\n\
         \"What is false\" gives an input, what the edit makes of it, and what is right. A handle is written as base, length,\n\
         serial, a record as serial, quota, count, a header as size, back, serial. M1 to M12 are the steps of rule 12.1. A is\n\
         a heap of 64 bytes with a live block from 0 up to 24, the object (8, 16, 1), and a free block behind it. \"Refused at\"\n\
         is the place of the first error: the folder of a function's proof or a file, from the crate's `proofs/`, and the fact\n\
         there.\n",
        wrong.tried(Tried::Gate),
        wrong.tried(Tried::Apart),
        wrong.public().count(),
    )
}

#[cfg(test)]
mod tests {
    use super::*;

    fn row(label: &str, falsity: &str) -> Row {
        Row {
            label: label.to_string(),
            tried: Tried::Gate,
            falsity: falsity.to_string(),
            refused: "charge `returns`".to_string(),
        }
    }

    #[test]
    fn a_row_and_a_wide_one() {
        let mut out = String::new();
        put_row(&mut out, "`charge` ", &row("adds", "1: 2"));
        assert_eq!(
            out,
            "| `charge` | `adds` | gate | 1: 2 | charge `returns` |\n"
        );
        out.clear();
        put_row(&mut out, "", &row("adds", &"x".repeat(WIDEST)));
        assert_eq!(out.lines().count(), 2);
    }
}
