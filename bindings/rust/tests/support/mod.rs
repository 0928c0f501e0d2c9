//! Compiles C programs against the header and the library, and runs them.

use std::ffi::OsString;
use std::io::Write;
use std::path::{Path, PathBuf};
use std::process::{Command, Stdio};

/// How the programs are compiled: C11, every warning an error.
const FLAGS: [&str; 6] = [
    "-std=c11",
    "-Wall",
    "-Wextra",
    "-Wpedantic",
    "-Wconversion",
    "-Werror",
];

/// A file of the repository.
pub fn repository(path: &str) -> PathBuf {
    Path::new(env!("CARGO_MANIFEST_DIR"))
        .join("../..")
        .join(path)
}

/// A name such as `NoSpace` as the header writes it, `NO_SPACE`.
pub fn in_capitals(name: &str) -> String {
    let mut capitals = String::new();
    for letter in name.chars() {
        if letter.is_uppercase() && !capitals.is_empty() {
            capitals.push('_');
        }
        capitals.push(letter.to_ascii_uppercase());
    }
    capitals
}

/// The lines of the headers' list of refusals, `NAME = NUMBER` without `LOKHAZIM_`.
pub fn refusals_of_header() -> Vec<String> {
    let header = text_of("include/lokhazim.h");
    let list = header
        .lines()
        .skip_while(|line| *line != "enum lokhazim_refusal {")
        .take_while(|line| *line != "};");
    list.filter_map(|line| line.trim().strip_prefix("LOKHAZIM_"))
        .map(|line| {
            line.split([',', '/'])
                .next()
                .unwrap_or("")
                .trim()
                .to_owned()
        })
        .collect()
}

/// A file's text.
pub fn text_of(path: &str) -> String {
    std::fs::read_to_string(repository(path)).expect("the header is there")
}

/// Runs the C compiler on something, which it has to take; gives what it prints.
fn cc(what: &str, words: &[OsString]) -> String {
    let done = Command::new("cc")
        .args(words)
        .output()
        .expect("the command 'cc' is missing: install a C compiler");
    assert!(
        done.status.success(),
        "{what} does not compile:\n{}",
        String::from_utf8_lossy(&done.stderr)
    );
    String::from_utf8_lossy(&done.stdout).trim().to_owned()
}

/// Compiles a C program of the repository at a level of optimisation, such as `-O2`.
pub fn compile(source: &str, level: &str) -> PathBuf {
    let path = repository(source);
    let name = path.file_stem().expect("a source file has a name");
    let program = Path::new(env!("CARGO_TARGET_TMPDIR"))
        .join(name)
        .with_extension(&level[1..]);
    compile_over(source, &[level], &repository("include"), &program);
    program
}

/// Compiles a C program of the repository with some flags, over the headers of a folder.
pub fn compile_over(source: &str, flags: &[&str], headers: &Path, program: &Path) {
    let mut words: Vec<OsString> = FLAGS.map(OsString::from).to_vec();
    words.extend(flags.iter().map(OsString::from));
    words.extend(["-I".into(), headers.into(), repository(source).into()]);
    words.push(
        Path::new(env!("LOKHAZIM_LIBRARIES"))
            .join("liblokhazim.a")
            .into(),
    );
    words.extend(["-o".into(), program.into()]);
    cc(&format!("{source} with {flags:?}"), &words);
}

/// What a compiler warns of in a C program of the repository; none where there is no such compiler.
pub fn warnings(compiler: &str, source: &str) -> Option<String> {
    let done = Command::new(compiler)
        .args([
            "-std=c11",
            "-Wall",
            "-Wextra",
            "-c",
            "-o",
            "/dev/null",
            "-I",
        ])
        .args([repository("include"), repository(source)])
        .output()
        .ok()?;
    assert!(done.status.success(), "{source} does not compile");
    Some(String::from_utf8_lossy(&done.stderr).into_owned())
}

/// Has the compiler read headers, named by what follows `lokhazim`, with its own headers alone, as for
/// a machine without an operating system.
pub fn read_headers(names: &[&str], flags: &[&str]) {
    let own = cc("nothing", &["-print-file-name=include".into()]);
    let mut words: Vec<OsString> = FLAGS.map(OsString::from).to_vec();
    words.extend(flags.iter().map(OsString::from));
    words.extend(["-ffreestanding", "-nostdinc", "-isystem", &own].map(OsString::from));
    for name in names {
        let header = repository(&format!("include/lokhazim{name}.h"));
        words.extend(["-include".into(), header.into()]);
    }
    words.extend(["-fsyntax-only", "-x", "c", "/dev/null"].map(OsString::from));
    cc(&format!("a program with {names:?} and {flags:?}"), &words);
}

/// Runs a program with some words and an input; it has to end well, and gives what it prints.
pub fn run(program: &Path, words: &[&str], input: &[u8]) -> Vec<u8> {
    let mut child = Command::new(program)
        .args(words)
        .stdin(Stdio::piped())
        .stdout(Stdio::piped())
        .stderr(Stdio::piped())
        .spawn()
        .expect("a compiled program can be started");
    let mut stdin = child.stdin.take().expect("the program's input is a pipe");
    stdin.write_all(input).expect("the program reads its input");
    drop(stdin);
    let done = child.wait_with_output().expect("the program ends");
    assert!(
        done.status.success(),
        "{} failed: {}",
        program.display(),
        String::from_utf8_lossy(&done.stderr)
    );
    done.stdout
}
