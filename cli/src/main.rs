//! The command `lokhazim`: replays and draws scripts, gives statistics, works on images and settings, and
//! reads audit reports. Every rule is in the proved library; this program reads files, calls it and
//! prints.
//!
//! Exit status: 0 where all went well, 1 where the library refuses, 2 for wrong words or a file that
//! can't be read or written.

#![deny(unsafe_code)]

mod draw;
mod failure;
mod files;
mod image;
mod json;
mod marks;
mod options;
#[allow(unsafe_code)]
mod proved;
mod report;
mod script;
mod settings;
mod statistics;

use std::env;
use std::process::ExitCode;

use failure::Failure;
use image::Form;
use lokhazim::QUOTAS;
use settings::Form as ValueForm;

/// What the command can do.
fn help() -> String {
    format!(
        "\
lokhazim: a heap that parts of a firmware share, by its proved library

    lokhazim replay SCRIPT            run a script of calls and print each answer, then the blocks
    lokhazim image save SCRIPT OUT    run a script and write an image of the heap that it leaves;
                                      'save --form 1 SCRIPT OUT' writes the form of earlier versions
    lokhazim image show FILE          print what an image holds: form, length and last serial;
                                      kind plain or quarantine; edition 1 or 2;
                                      quota NUMBER GRANT REMAINDER PERMISSIONS (1 allocate, 2 claim,
                                      4 free-all, added); hold PLACE SERIAL QUOTA COUNT;
                                      block OFFSET SIZE SERIAL, with 0 for a free block and
                                      'quarantined' for one that waits for a sweep
    lokhazim image compare A B        print what differs between two images, a line each: serial,
                                      kind, edition, quota NUMBER, record PLACE, bytes OFFSET LENGTH;
                                      status 0 where nothing does, 1 where something does, 2 where one
                                      is refused
    lokhazim image move up IN OUT     write an image of form 1 in form 2; 'move down' writes form 2 in
                                      form 1, where that can carry it: not with quarantine or edition 2
    lokhazim draw SCRIPT|IMAGE -o FILE.svg
                                      draw the heap as a strip of blocks with their holders, and of a
                                      script each object over the calls; FILE.html has a table too;
                                      '--quarantine' and '--edition 2' open a script's heap so, and with
                                      quarantine a line can be 'sweep'
    lokhazim statistics SCRIPT|IMAGE  print the statistics of the heap that a script leaves or an image
                                      holds: free, live and quarantined blocks and bytes, the longest
                                      request in each unit, fragmentation, records, and what each quota
                                      has; of a script the highest and lowest ones too, and after which
                                      line; '--quarantine' and '--edition 2' as for draw
    lokhazim report import FILE       print the grants in an audit report, to stand behind 'open H': FILE
                                      has a line for each quota, or is the linker's JSON
    lokhazim report export G..        print grants as a report of 32 lines; missing ones are 0
    lokhazim settings find BOARD DEFAULTS NAME VERSION [--hex]
                                      print the value of a name at a version, from the first file,
                                      else from the second: its bytes, or its digits on a line
    lokhazim settings add FILE NAME VERSION VALUE [--hex]
                                      add an entry to a file and print its new length
    lokhazim settings list FILE       print the entries: entry VERSION NAME LENGTH DIGITS
    lokhazim help | version

A script begins with 'open H' and {QUOTAS} grants, then has a call to a line: alloc q n, array q n s,
claim q b l s, free q b l s, all q, realloc q b l s n. Its heap is plain and of edition 1. SCRIPT, IMAGE,
FILE and IN can be - for standard input.
A file of settings holds the used bytes of a store; an empty one is a store without entries. NAME is
0 to 255, VERSION 0 to 65535; with --hex a value is two hexadecimal digits for each byte.
Status 0: done. 1: refused, with the number and the reason. 2: wrong words, or a file that can't be
read or written. docs/RULES.md has every rule.
"
    )
}

/// The form with a number that is 1 or 2.
fn form_numbered(number: &str) -> Form {
    if number == "1" {
        Form::First
    } else {
        Form::Second
    }
}

fn main() -> ExitCode {
    let words: Vec<String> = env::args_os()
        .skip(1)
        .map(|word| word.to_string_lossy().into_owned())
        .collect();
    let words: Vec<&str> = words.iter().map(String::as_str).collect();
    match run(&words) {
        Ok(()) => ExitCode::SUCCESS,
        Err(failure) => {
            if let Some(words) = failure.words() {
                eprintln!("lokhazim: {words}");
            }
            ExitCode::from(failure.status())
        }
    }
}

/// Does what the words say.
fn run(words: &[&str]) -> Result<(), Failure> {
    match words {
        ["replay", script] => replay(script),
        ["image", "save", script, out] => image::save(Form::Second, script, out),
        ["image", "save", "--form", form @ ("1" | "2"), script, out]
        | ["image", "save", script, out, "--form", form @ ("1" | "2")] => {
            image::save(form_numbered(form), script, out)
        }
        ["image", "show", file] => image::show(file),
        ["image", "compare", first, second] => image::compare(first, second),
        ["image", "move", "up", image, out] => image::move_to(Form::Second, image, out),
        ["image", "move", "down", image, out] => image::move_to(Form::First, image, out),
        ["draw", words @ ..] => draw::draw(words),
        ["statistics", words @ ..] => statistics::statistics(words),
        ["report", "import", file] => report::import(file),
        ["report", "export", grants @ ..] if !grants.is_empty() => report::export(grants),
        ["settings", "find", board, defaults, name, version] => {
            settings::find(board, defaults, name, version, ValueForm::Text)
        }
        ["settings", "find", board, defaults, name, version, "--hex"] => {
            settings::find(board, defaults, name, version, ValueForm::Hex)
        }
        ["settings", "add", file, name, version, value] => {
            settings::add(file, name, version, value, ValueForm::Text)
        }
        ["settings", "add", file, name, version, value, "--hex"] => {
            settings::add(file, name, version, value, ValueForm::Hex)
        }
        ["settings", "list", file] => settings::list(file),
        ["help" | "--help" | "-h"] => files::print(help().as_bytes()),
        ["version" | "--version"] => {
            files::print(concat!("lokhazim ", env!("CARGO_PKG_VERSION"), "\n").as_bytes())
        }
        [] => Err(usage("say what to do")),
        other => Err(usage(&format!("'{}' is not understood", other.join(" ")))),
    }
}

/// The failure of wrong words.
fn usage(what: &str) -> Failure {
    Failure::Usage(format!("{what}; 'lokhazim help' lists what can be said"))
}

/// Prints what a script prints.
fn replay(name: &str) -> Result<(), Failure> {
    let printed = script::printed(name, &files::read(name)?);
    files::print(printed.text.as_bytes())?;
    match printed.bad {
        Some(bad) => Err(Failure::Refused(bad)),
        None => Ok(()),
    }
}
