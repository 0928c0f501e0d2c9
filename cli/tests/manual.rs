//! The manual page, held to what the command says of itself.

#[allow(dead_code)]
mod support;

use std::path::Path;

use support::{folder, lokhazim};

/// The manual page's source.
fn page() -> String {
    let page = Path::new(env!("CARGO_MANIFEST_DIR")).join("../man/lokhazim.1");
    std::fs::read_to_string(page).expect("the manual page is there")
}

/// The words of each command that `lokhazim help` lists, without what stands for a file or a number.
fn commands() -> Vec<String> {
    let run = lokhazim(&folder("help"), &["help"]);
    let help = String::from_utf8(run.stdout).expect("help is text");
    help.lines()
        .filter_map(|line| line.strip_prefix("    lokhazim "))
        .map(|line| {
            let small = |word: &&str| word.chars().all(|letter| letter.is_ascii_lowercase());
            let words: Vec<&str> = line.split(' ').take_while(small).collect();
            words.join(" ").trim_end().to_owned()
        })
        .collect()
}

#[test]
fn each_command_is_in_the_manual_twice() {
    let page = page();
    let commands = commands();
    assert!(commands.len() >= 11, "{commands:?}");
    for command in commands {
        let first = format!("\n.B lokhazim {command}\n");
        assert!(page.contains(&first), "the synopsis lacks '{command}'");
        let told = [
            format!("\n.TP\n.BI \"lokhazim {command} \""),
            format!("\n.TP\n.B lokhazim {command}\n"),
        ];
        let is_told = told.iter().any(|text| page.contains(text));
        assert!(is_told, "'{command}' is not explained");
    }
}

#[test]
fn each_call_of_a_script_is_in_the_manual() {
    for call in ["alloc", "array", "claim", "free", "all", "realloc"] {
        assert!(page().contains(&format!("\n\\fB{call}\\fR ")), "{call}");
    }
}
