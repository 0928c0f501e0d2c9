//! Settings: a value found, an entry added, and a store listed. A file holds exactly the used
//! bytes of a store.

use std::fmt::Write;

use lokhazim::{add_setting, find_setting, SettingsRefusal, Store, ENTRY_FRONT};

use crate::failure::Failure;
use crate::files;

/// How a value stands in the words of the command and in what it prints.
#[derive(Clone, Copy, Debug)]
pub enum Form {
    /// As it is.
    Text,
    /// Two hexadecimal digits for each byte.
    Hex,
}

/// A refusal, by the file that it is about.
fn refused(name: &str) -> impl Fn(SettingsRefusal) -> Failure + '_ {
    move |refusal| Failure::Refused(format!("{name}: {refusal}"))
}

/// A number of the command line, at most so much.
fn number<T: TryFrom<u32>>(word: &str, what: &str, most: u32) -> Result<T, Failure> {
    let plain = !word.is_empty() && word.bytes().all(|byte| byte.is_ascii_digit());
    let value = word.parse().ok().filter(|_| plain);
    value
        .and_then(|value: u32| T::try_from(value).ok())
        .ok_or_else(|| Failure::Usage(format!("'{word}' is no {what}, a number from 0 to {most}")))
}

/// A name's number and a version.
fn name_and_version(name: &str, version: &str) -> Result<(u8, u16), Failure> {
    Ok((
        number(name, "name", 255)?,
        number(version, "version", 65_535)?,
    ))
}

/// The bytes of a value in the words of the command.
fn value_of(word: &str, form: Form) -> Result<Vec<u8>, Failure> {
    let Form::Hex = form else {
        return Ok(word.as_bytes().to_vec());
    };
    let wrong = || {
        let what = "two hexadecimal digits for each byte";
        Failure::Usage(format!("'{word}' is no value; --hex takes {what}"))
    };
    let digits: Option<Vec<u32>> = word.chars().map(|digit| digit.to_digit(16)).collect();
    let digits = digits.filter(|digits| digits.len().is_multiple_of(2));
    let bytes = digits.ok_or_else(wrong)?;
    Ok(bytes
        .chunks(2)
        .map(|pair| (16 * pair[0] + pair[1]) as u8)
        .collect())
}

/// A value as hexadecimal digits.
fn hex(value: &[u8]) -> String {
    value.iter().fold(String::new(), |mut text, byte| {
        let _ = write!(text, "{byte:02x}");
        text
    })
}

/// Prints the value of a name at a version: its bytes and nothing else, or its digits on a line.
pub fn find(
    board: &str,
    defaults: &str,
    name: &str,
    version: &str,
    form: Form,
) -> Result<(), Failure> {
    let (number, at) = name_and_version(name, version)?;
    let (own, given) = (files::read(board)?, files::read(defaults)?);
    let value =
        find_setting(Store::whole(&own), Store::whole(&given), number, at).map_err(|refusal| {
            let about = match refusal {
                SettingsRefusal::Malformed if is_malformed(&own) => board.to_string(),
                SettingsRefusal::Malformed => defaults.to_string(),
                _ => format!("{board}, {defaults}: name {name}, version {version}"),
            };
            Failure::Refused(format!("{about}: {refusal}"))
        })?;
    match form {
        Form::Text => files::print(value),
        Form::Hex => files::print(format!("{}\n", hex(value)).as_bytes()),
    }
}

/// Whether the bytes are no run of entries.
fn is_malformed(bytes: &[u8]) -> bool {
    matches!(Store::whole(bytes).entries().next(), Some(Err(_)))
}

/// Adds an entry to a file and prints its new length.
pub fn add(file: &str, name: &str, version: &str, value: &str, form: Form) -> Result<(), Failure> {
    let (name, version) = name_and_version(name, version)?;
    let value = value_of(value, form)?;
    if file == "-" {
        let what = "standard input can't get an entry; name a file";
        return Err(Failure::Usage(what.to_string()));
    }
    let mut bytes = files::read(file)?;
    let used = bytes.len();
    bytes.resize(used + ENTRY_FRONT + value.len(), 0);
    let used = add_setting(&mut bytes, used, name, version, &value).map_err(refused(file))?;
    files::write(file, &bytes[..used])?;
    files::print(format!("ok {used}\n").as_bytes())
}

/// Prints the entries of a file, a line each.
pub fn list(file: &str) -> Result<(), Failure> {
    let bytes = files::read(file)?;
    let mut text = String::new();
    for entry in Store::whole(&bytes).entries() {
        let entry = entry.map_err(refused(file))?;
        let (length, digits) = (entry.value.len(), hex(entry.value));
        let line = format!("entry {} {} {length} {digits}", entry.version, entry.name);
        text.push_str(line.trim_end());
        text.push('\n');
    }
    files::print(text.as_bytes())
}
