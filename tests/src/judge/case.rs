//! A call on a state as a text that can be saved and read again.

use std::fmt::Write;

use lokhazim_reference::{Accounts, Handle, Hold, Quota, HOLDS, QUOTAS};

use crate::state::{Call, Choice, State};

/// How many bytes of the heap a line has.
const BYTES_IN_LINE: usize = 32;

/// Writes a call and the state that it is made on.
pub fn write_case(state: &State, call: Call) -> String {
    let mut text = format!("call {call}\n");
    let accounts = &state.accounts;
    // Writing to a string does not fail.
    let _ = writeln!(text, "last-serial {}", accounts.last_serial);
    let _ = writeln!(text, "kind {}", accounts.kind);
    let _ = writeln!(text, "edition {}", accounts.edition);
    for (number, quota) in accounts.quotas.iter().enumerate() {
        let Quota {
            grant,
            remainder,
            permissions,
        } = quota;
        let _ = writeln!(text, "quota {number} {grant} {remainder} {permissions}");
    }
    for (place, hold) in accounts.holds.iter().enumerate() {
        let Hold {
            serial,
            quota,
            count,
        } = hold;
        if hold.is_used() {
            let _ = writeln!(text, "hold {place} {serial} {quota} {count}");
        }
    }
    for line in state.heap.chunks(BYTES_IN_LINE) {
        let bytes: Vec<String> = line.iter().map(|byte| format!("{byte:02x}")).collect();
        let _ = writeln!(text, "heap {}", bytes.join(" "));
    }
    text
}

/// Reads a call and its state; lines that start with `#` or are empty say nothing.
pub fn read_case(text: &str) -> Option<(State, Call)> {
    let mut state = State {
        heap: Vec::new(),
        accounts: Accounts::default(),
    };
    let mut call = None;
    for line in text
        .lines()
        .filter(|l| !l.is_empty() && !l.starts_with('#'))
    {
        let (word, rest) = line.split_once(' ')?;
        match word {
            "call" => call = Some(read_call(rest)?),
            "heap" => state.heap.extend(read_bytes(rest)?),
            _ => read_number_line(&mut state.accounts, word, &numbers(rest)?)?,
        }
    }
    Some((state, call?))
}

/// Reads decimal numbers with spaces between them.
fn numbers(text: &str) -> Option<Vec<u64>> {
    text.split_whitespace()
        .map(|word| word.parse().ok())
        .collect()
}

/// Reads bytes in hexadecimal with spaces between them.
fn read_bytes(text: &str) -> Option<Vec<u8>> {
    let words = text.split_whitespace();
    words
        .map(|word| u8::from_str_radix(word, 16).ok())
        .collect()
}

/// Reads a line of the accounts.
fn read_number_line(accounts: &mut Accounts, word: &str, numbers: &[u64]) -> Option<()> {
    match (word, numbers) {
        ("last-serial", [serial]) => accounts.last_serial = *serial as u32,
        ("kind", [kind]) => accounts.kind = *kind as u8,
        ("edition", [edition]) => accounts.edition = *edition as u8,
        ("quota", [number, grant, remainder, permissions]) if (*number as usize) < QUOTAS => {
            accounts.quotas[*number as usize] = Quota {
                grant: *grant as u32,
                remainder: *remainder as u32,
                permissions: *permissions as u8,
            };
        }
        ("hold", [place, serial, quota, count]) if (*place as usize) < HOLDS => {
            accounts.holds[*place as usize] = Hold {
                serial: *serial as u32,
                quota: *quota as u8,
                count: *count as u8,
            };
        }
        _ => return None,
    }
    Some(())
}

/// Reads a call as its `Display` writes it.
fn read_call(text: &str) -> Option<Call> {
    let (name, rest) = text.split_once(' ').unwrap_or((text, ""));
    let numbers = numbers(rest)?;
    if name == "list" {
        return Some(Call::List(*numbers.first()? as usize));
    }
    let small: Vec<u32> = numbers.iter().map(|number| *number as u32).collect();
    let handle = |b: u32, l: u32, s: u32| Handle {
        base: b,
        length: l,
        serial: s,
    };
    Some(match (name, small.as_slice()) {
        ("open", [grants @ .., kind, edition]) => {
            Call::Open(grants.try_into().ok()?, Choice::of(*kind, *edition))
        }
        ("allocate", &[q, n]) => Call::Allocate(q, n),
        ("array", &[q, n, s]) => Call::Array(q, n, s),
        ("claim", &[q, b, l, s]) => Call::Claim(q, handle(b, l, s)),
        ("release", &[q, b, l, s]) => Call::Release(q, handle(b, l, s)),
        ("free-all", &[q]) => Call::FreeAll(q),
        ("reallocate", &[q, b, l, s, n]) => Call::Reallocate(q, handle(b, l, s), n),
        ("lend", &[b, l, s]) => Call::Lend(handle(b, l, s)),
        ("write", &[b, l, s, at, byte]) => Call::Write(handle(b, l, s), at, byte as u8),
        ("remaining", &[q]) => Call::Remaining(q),
        ("can-release", &[q, b, l, s]) => Call::CanRelease(q, handle(b, l, s)),
        ("check", &[]) => Call::Check,
        ("clear-permissions", &[q, n]) => Call::ClearPermissions(q, n),
        ("sweep", &[]) => Call::Sweep,
        _ => return None,
    })
}
