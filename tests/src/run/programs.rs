//! The two replay programs and the command's replay, run on the same input.

use std::env;
use std::io::Write;
use std::path::{Path, PathBuf};
use std::process::{Command, Output, Stdio};
use std::thread;

use crate::judge::compare::{repository, save, Failure};

/// Where the programs are.
pub struct Programs {
    proved: PathBuf,
    reference: PathBuf,
    command: PathBuf,
}

/// How an input is written to a program: whole, or in pieces of so many bytes.
#[derive(Clone, Copy, Debug, PartialEq, Eq)]
pub enum Feed {
    /// In one piece.
    Whole,
    /// In pieces of so many bytes, at least 1.
    Pieces(usize),
}

impl Programs {
    /// Finds the programs, or says what to run.
    pub fn find() -> Result<Programs, Failure> {
        let proved = repository().join("crates/replay/out/replay");
        need(&proved, "make run")?;
        let (reference, command) = (built("replay-reference"), built("lokhazim"));
        need(&reference, "cargo build --offline --workspace")?;
        need(&command, "cargo build --offline --workspace")?;
        Ok(Programs {
            proved,
            reference,
            command,
        })
    }

    /// Runs the programs on an input and gives the output, or saves the input where they differ.
    pub fn compare(&self, name: &str, input: &[u8], feed: Feed) -> Result<Vec<u8>, Failure> {
        let proved = run(&self.proved, &[], input, feed)?;
        let reference = run(&self.reference, &[], input, Feed::Whole)?;
        let alike = proved.stdout == reference.stdout && proved.status == reference.status;
        if alike && proved.status.success() && proved.stderr.is_empty() {
            self.command_agrees(name, input, &proved.stdout)?;
            return Ok(reference.stdout);
        }
        let script = save(&format!("script-{name}.in"), input)?;
        save(&format!("script-{name}.proved"), &proved.stdout)?;
        save(&format!("script-{name}.reference"), &reference.stdout)?;
        Err(Failure(format!(
            "script {name}: {}. The input is saved in {}, the two outputs stand beside it as .proved and .reference",
            difference(&proved, &reference),
            script.display()
        )))
    }
}

impl Programs {
    /// Holds the command's replay to the same output; its status is 1 exactly behind a bad line.
    fn command_agrees(&self, name: &str, input: &[u8], printed: &[u8]) -> Result<(), Failure> {
        let command = run(&self.command, &["replay", "-"], input, Feed::Whole)?;
        let status = i32::from(printed.ends_with(b"bad\n"));
        if command.stdout == printed && command.status.code() == Some(status) {
            return Ok(());
        }
        let script = save(&format!("script-{name}.in"), input)?;
        Err(Failure(format!(
            "script {name}: 'lokhazim replay' ended with {} and does not print what the proved program prints. The input is saved in {}",
            command.status,
            script.display()
        )))
    }
}

/// A program that cargo built, beside this one or where it is built by default.
fn built(name: &str) -> PathBuf {
    let own = env::current_exe().unwrap_or_default();
    let mut folders = own.ancestors().skip(1).take(2);
    folders
        .find(|folder| folder.join(name).is_file())
        .map_or_else(
            || repository().join("build/cargo/debug").join(name),
            |f| f.join(name),
        )
}

/// Says what to run if a program is missing.
fn need(program: &Path, command: &str) -> Result<(), Failure> {
    if program.is_file() {
        return Ok(());
    }
    Err(Failure(format!(
        "the program {} is missing: run '{command}' in the repository's folder",
        program.display()
    )))
}

/// Says in words how two runs differ.
fn difference(proved: &Output, reference: &Output) -> String {
    if proved.stdout == reference.stdout {
        let complaint = String::from_utf8_lossy(&proved.stderr);
        return format!(
            "the proved program ended with {} and wrote '{complaint}' to its error output",
            proved.status
        );
    }
    let lines = |output: &Output| -> Vec<String> {
        let text = String::from_utf8_lossy(&output.stdout).into_owned();
        text.split('\n').map(str::to_owned).collect()
    };
    let (p, r) = (lines(proved), lines(reference));
    let first = p.iter().zip(&r).take_while(|(p, r)| p == r).count();
    let line = |all: &[String]| all.get(first).cloned().unwrap_or_default();
    format!(
        "output line {} is '{}' by the proved program and '{}' by the reference",
        first + 1,
        line(&p),
        line(&r)
    )
}

/// Runs a program with some words on an input and gives all that it left.
fn run(program: &Path, words: &[&str], input: &[u8], feed: Feed) -> Result<Output, Failure> {
    let failed = |error: std::io::Error| {
        Failure(format!(
            "the program {} could not be run: {error}",
            program.display()
        ))
    };
    let mut child = Command::new(program)
        .args(words)
        .stdin(Stdio::piped())
        .stdout(Stdio::piped())
        .stderr(Stdio::piped())
        .spawn()
        .map_err(failed)?;
    let stdin = child.stdin.take();
    thread::scope(|scope| {
        scope.spawn(move || stdin.map(|pipe| write_input(pipe, input, feed)));
        child.wait_with_output().map_err(failed)
    })
}

/// Writes the input and closes the pipe. A program may stop reading before the end of an input
/// that is too long, so a failed write is no failure.
fn write_input(mut pipe: impl Write, input: &[u8], feed: Feed) {
    let size = match feed {
        Feed::Whole => input.len().max(1),
        Feed::Pieces(size) => size,
    };
    for piece in input.chunks(size) {
        if pipe.write_all(piece).is_err() {
            return;
        }
    }
}
