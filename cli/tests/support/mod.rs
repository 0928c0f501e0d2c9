//! Runs the command in a folder of a test's own, and holds it to what it prints.

use std::fs;
use std::path::{Path, PathBuf};
use std::process::{Command, Output, Stdio};

use lokhazim::QUOTAS;

/// A folder of a test's own, empty at first.
pub fn folder(name: &str) -> PathBuf {
    let folder = Path::new(env!("CARGO_TARGET_TMPDIR")).join(name);
    let _ = fs::remove_dir_all(&folder);
    fs::create_dir_all(&folder).expect("the folder can be made");
    folder
}

/// Runs the command in a folder.
pub fn lokhazim(folder: &Path, words: &[&str]) -> Output {
    let mut command = Command::new(env!("CARGO_BIN_EXE_lokhazim"));
    let command = command.current_dir(folder).args(words).stdin(Stdio::null());
    command.output().expect("the command can be started")
}

/// Holds a run to its status, its output and a part of what it says of a failure.
pub fn expect(run: &Output, status: i32, printed: &str, said: &str) {
    let errors = String::from_utf8_lossy(&run.stderr);
    assert_eq!(run.status.code(), Some(status), "{errors}");
    assert_eq!(String::from_utf8_lossy(&run.stdout), printed);
    assert!(errors.contains(said), "{errors}");
    assert_eq!(errors.is_empty(), said.is_empty(), "{errors}");
}

/// The names of the files in a folder.
pub fn names(folder: &Path) -> Vec<String> {
    let files = fs::read_dir(folder).expect("the folder can be read");
    let mut names: Vec<String> = files
        .map(|file| {
            file.expect("a file")
                .file_name()
                .to_string_lossy()
                .into_owned()
        })
        .collect();
    names.sort();
    names
}

/// The line of an opening with these grants, and 0 for every other quota.
pub fn open(length: u32, first: &[u32]) -> String {
    let mut grants = [0; QUOTAS];
    grants[..first.len()].copy_from_slice(first);
    format!(
        "open {length} {}\n",
        grants.map(|grant| grant.to_string()).join(" ")
    )
}
