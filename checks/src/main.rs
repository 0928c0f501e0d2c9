//! Checks that the gate makes of the project's texts: the names and rules that documents cite, and the wrong programs.

mod cited;
mod declared;
mod documents;
mod edits;
mod files;
mod links;
mod log;
mod rules;
mod table;
mod wrong;

use std::process::ExitCode;

const USAGE: &str = "\
usage: checks names                     the names, rules and links that documents cite
       checks wrong [--log LOG [wrong]] the wrong programs; with --log where a log of rt has them refused
       checks wrong --write LOG         writes that into their third lines
       checks declared FILE..           what files of the crates declare: file, name, kind and line
Run it in the project's folder.";

/// What was wrong, a line each; or what was checked, in a sentence.
type Checked = Result<String, Vec<String>>;

fn run(words: &[&str]) -> Checked {
    match words {
        ["names"] => cited::check(),
        ["wrong"] => wrong::check(None),
        ["wrong", "--log", log] => wrong::check(Some((log, edits::Tried::Gate))),
        ["wrong", "--log", log, "wrong"] => wrong::check(Some((log, edits::Tried::Apart))),
        ["wrong", "--write", log] => wrong::write_places(log),
        ["declared", files @ ..] => declared::list(files),
        _ => Err(vec![USAGE.to_string()]),
    }
}

fn main() -> ExitCode {
    let words: Vec<String> = std::env::args().skip(1).collect();
    let words: Vec<&str> = words.iter().map(String::as_str).collect();
    match run(&words) {
        Ok(text) => {
            println!("{text}");
            ExitCode::SUCCESS
        }
        Err(lines) => {
            for line in lines {
                eprintln!("{line}");
            }
            ExitCode::FAILURE
        }
    }
}
