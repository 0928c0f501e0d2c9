//! Files: read whole, and written whole or not at all.

use std::fs;
use std::io::{self, Read, Write};
use std::path::{Path, PathBuf};

use crate::failure::Failure;

/// Reads a file, or standard input for `-`.
pub fn read(name: &str) -> Result<Vec<u8>, Failure> {
    let read = match name {
        "-" => {
            let mut bytes = Vec::new();
            io::stdin().read_to_end(&mut bytes).map(|_| bytes)
        }
        _ => fs::read(name),
    };
    read.map_err(|error| Failure::File(format!("{name} can't be read: {error}")))
}

/// Whether a file is to be read as an image: it has a zero byte, which every image has in its first
/// frame's number and no script has, and does not begin as a script.
pub fn is_image(bytes: &[u8]) -> bool {
    bytes.contains(&0) && !bytes.starts_with(b"open ")
}

/// Writes a file: a new one beside it first, which then takes its name. Where that fails, what was
/// there stays.
pub fn write(name: &str, bytes: &[u8]) -> Result<(), Failure> {
    let beside = beside(Path::new(name));
    let written = fs::write(&beside, bytes).and_then(|()| fs::rename(&beside, name));
    written.map_err(|error| {
        // The new file is of no use any more; whether it can be removed changes nothing.
        let _ = fs::remove_file(&beside);
        Failure::File(format!("{name} can't be written: {error}"))
    })
}

/// The name of the new file, in the same folder.
fn beside(path: &Path) -> PathBuf {
    let mut name = path.file_name().unwrap_or_default().to_os_string();
    name.push(format!(".{}.new", std::process::id()));
    path.with_file_name(name)
}

/// Writes to standard output. A reader that has gone away is no failure.
pub fn print(bytes: &[u8]) -> Result<(), Failure> {
    let mut out = io::stdout().lock();
    match out.write_all(bytes).and_then(|()| out.flush()) {
        Err(error) if error.kind() != io::ErrorKind::BrokenPipe => Err(Failure::File(format!(
            "standard output can't be written: {error}"
        ))),
        _ => Ok(()),
    }
}
