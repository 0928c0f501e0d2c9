//! The words of the C headers: they are this crate's own, for every number, and the version is one.

#[allow(dead_code)]
mod support;

use lokhazim::{ImageRefusal, QueueRefusal, ReportRefusal, SettingsRefusal};
use support::{compile, run};

/// The refusal that the C headers give by themselves, before the library is called.
const BAD_POINTER: u32 = 100;

/// What this crate says of a number, without the number in front.
fn words(number: u32) -> String {
    let said = QueueRefusal::from_number(number)
        .map(|refusal| refusal.to_string())
        .or_else(|| ImageRefusal::from_number(number).map(|refusal| refusal.to_string()))
        .or_else(|| ReportRefusal::from_number(number).map(|refusal| refusal.to_string()))
        .or_else(|| SettingsRefusal::from_number(number).map(|refusal| refusal.to_string()));
    match said {
        None if number == 0 => "not refused".into(),
        None => "unknown refusal".into(),
        Some(said) => said
            .strip_prefix(&format!("refusal {number}: "))
            .expect("a text begins with its number")
            .into(),
    }
}

/// What the C program prints. Each test has its own level, so that none runs what another writes.
fn printed(level: &str) -> String {
    let program = compile("bindings/rust/tests/c/refusals.c", level);
    String::from_utf8(run(&program, &[], b"")).expect("the texts are text")
}

#[test]
fn the_headers_have_this_crates_words() {
    let printed = printed("-O2");
    let lines: Vec<&str> = printed.lines().skip(1).collect();
    assert_eq!(lines.len(), 202, "a line for each number");
    for line in lines {
        let (number, text) = line.split_once(' ').expect("a line has two parts");
        let number = number.parse().expect("the first part is a number");
        if number == BAD_POINTER {
            assert!(text.contains("; ") && text.contains("LOKHAZIM_ALIGNMENT"));
        } else {
            assert_eq!(text, words(number), "{number}");
        }
    }
}

#[test]
fn the_header_has_this_crates_version() {
    let version = env!("CARGO_PKG_VERSION");
    let wanted = format!("version {version} {version}");
    assert_eq!(printed("-O0").lines().next(), Some(wanted.as_str()));
}
