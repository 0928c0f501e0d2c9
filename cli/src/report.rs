//! Audit reports: grants taken from lines or from the linker's JSON, and written as lines.
//!
//! What a line says is decided by the proved import. In JSON this file only finds the lines: the
//! `contents` of each entry whose sealing type has the key `MallocKey`.

use lokhazim::{export_grants, import_grants, QUOTAS, REPORT_LENGTH};

use crate::failure::Failure;
use crate::files;
use crate::json::{self, Kind, Value};

/// The key of the allocator's sealing type.
const KEY: &str = "MallocKey";

/// Prints the grants of a report, ready to stand behind `open H`.
pub fn import(name: &str) -> Result<(), Failure> {
    let text = files::read(name)?;
    let first = text.iter().find(|byte| !byte.is_ascii_whitespace());
    let grants = match first {
        Some(b'{' | b'[') => from_json(name, &text)?,
        _ => import_grants(&text).map_err(|bad| Failure::Refused(format!("{name}: {bad}")))?,
    };
    let words = grants.map(|grant| grant.to_string());
    files::print(format!("{}\n", words.join(" ")).as_bytes())
}

/// Prints the report of grants; those that are missing are 0.
pub fn export(words: &[&str]) -> Result<(), Failure> {
    if words.len() > QUOTAS {
        let count = words.len();
        return Err(Failure::Usage(format!(
            "{count} grants are too many: there are {QUOTAS} quotas"
        )));
    }
    let mut grants = [0; QUOTAS];
    for (grant, word) in grants.iter_mut().zip(words) {
        *grant = number(word).ok_or_else(|| {
            Failure::Usage(format!(
                "'{word}' is no grant: a grant is a number from 0 to {} in decimal digits",
                u32::MAX
            ))
        })?;
    }
    let mut text = [0; REPORT_LENGTH];
    export_grants(grants, &mut text).map_err(|refusal| Failure::Refused(refusal.to_string()))?;
    files::print(&text)
}

/// The number that decimal digits are.
fn number(word: &str) -> Option<u32> {
    let digits = word.bytes().all(|byte| byte.is_ascii_digit());
    word.parse().ok().filter(|_| digits)
}

/// The grants of the allocator's entries in the linker's JSON.
fn from_json(name: &str, text: &[u8]) -> Result<[u32; QUOTAS], Failure> {
    let report = json::read(text)
        .map_err(|wrong| Failure::Refused(format!("{name}: this is no JSON: {wrong}")))?;
    let mut entries = Vec::new();
    find_entries(&report, &mut entries);
    if entries.is_empty() {
        return Err(Failure::Refused(format!(
            "{name}: no entry has a sealing_type with the key {KEY}"
        )));
    }
    let mut lines = String::new();
    for (number, entry) in (1..).zip(&entries) {
        let contents = entry.member("contents").and_then(Value::text);
        match contents.filter(|line| !line.contains('\n')) {
            Some(line) => lines.extend([line, "\n"]),
            None => {
                return Err(Failure::Refused(format!(
                    "{name}: {}: its contents is not one line of text",
                    called(number, entry)
                )))
            }
        }
    }
    import_grants(lines.as_bytes()).map_err(|bad| {
        let entry = entries[bad.line as usize - 1];
        let called = called(bad.line as usize, entry);
        Failure::Refused(format!("{name}: {called}: {}", bad.refusal))
    })
}

/// How an entry is called: its number among the allocator's, from 1, and where it begins.
fn called(number: usize, entry: &Value) -> String {
    format!("the {KEY} entry {number} at {}", entry.place)
}

/// Finds the allocator's entries in a value, in the order of the text.
fn find_entries<'a>(value: &'a Value, entries: &mut Vec<&'a Value>) {
    let key = value.member("sealing_type").and_then(|s| s.member("key"));
    if key.and_then(Value::text) == Some(KEY) {
        entries.push(value);
    }
    match &value.kind {
        Kind::List(values) => values.iter().for_each(|v| find_entries(v, entries)),
        Kind::Object(members) => members.iter().for_each(|(_, v)| find_entries(v, entries)),
        Kind::Text(_) | Kind::Other => {}
    }
}
