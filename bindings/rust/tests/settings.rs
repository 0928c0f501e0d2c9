//! Settings: values lie where they were added, and the refusals are those of the C header.

#[allow(dead_code)]
mod support;

use std::error::Error;

use support::{in_capitals, refusals_of_header, text_of};

use lokhazim::{add_setting, find_setting, Entry, SettingsRefusal, Store, ENTRY_FRONT, VALUE_MAX};

#[test]
fn the_header_has_the_same_numbers() {
    let refusals = refusals_of_header();
    for refusal in SettingsRefusal::ALL {
        let name = in_capitals(&format!("{refusal:?}"));
        let line = format!("SETTINGS_{name} = {}", refusal.number());
        assert!(refusals.contains(&line), "the header lacks '{line}'");
    }
    let header = text_of("include/lokhazim_settings.h");
    for line in [
        format!(
            "#define LOKHAZIM_SETTINGS_VALUE_MAX {VALUE_MAX}
"
        ),
        format!(
            "#define LOKHAZIM_SETTINGS_FRONT {ENTRY_FRONT}
"
        ),
    ] {
        assert!(header.contains(&line), "the header lacks the line '{line}'");
    }
}

#[test]
fn numbers_run_from_41_to_45_and_back() {
    for (number, refusal) in (41..).zip(SettingsRefusal::ALL) {
        assert_eq!(refusal.number(), number);
        assert_eq!(SettingsRefusal::from_number(number), Some(refusal));
    }
    assert_eq!(SettingsRefusal::from_number(0), None);
    assert_eq!(SettingsRefusal::from_number(46), None);
}

#[test]
fn each_text_names_the_number_and_says_what_to_do() {
    for refusal in SettingsRefusal::ALL {
        let error: &dyn Error = &refusal;
        let text = error.to_string();
        assert!(text.starts_with(&format!("refusal {}: ", refusal.number())));
        assert!(text.contains("; "), "'{text}' does not say what to do");
    }
}

#[test]
fn values_are_the_bytes_where_they_lie() {
    let mut bytes = [0xEE; 80];
    let mut used = 0;
    for (version, value) in [(1, &b"one"[..]), (1, b""), (300, &[9; 64])] {
        used = add_setting(&mut bytes, used, 5, version, value).unwrap();
    }
    assert_eq!((used, bytes[79]), (79, 0xEE));
    let defaults = [0, 0, 6, 1, 77];
    let (board, other) = (Store::new(&bytes, used), Store::whole(&defaults));
    assert_eq!(
        find_setting(board, other, 5, 0),
        Err(SettingsRefusal::Missing)
    );
    let value = find_setting(board, other, 5, 299).unwrap();
    assert_eq!((value.as_ptr(), value.len()), (bytes[11..].as_ptr(), 0));
    let value = find_setting(board, other, 5, 300).unwrap();
    assert_eq!((value.as_ptr(), value.len()), (bytes[15..].as_ptr(), 64));
    let value = find_setting(board, other, 6, 0).unwrap();
    assert_eq!((value.as_ptr(), value.len()), (defaults[4..].as_ptr(), 1));
    let listed: Result<Vec<Entry<'_>>, SettingsRefusal> = board.entries().collect();
    let listed: Vec<_> = listed
        .unwrap()
        .iter()
        .map(|e| (e.version, e.value.len()))
        .collect();
    assert_eq!(listed, [(1, 3), (1, 0), (300, 64)]);
}

#[test]
fn each_refusal_writes_nothing() {
    use SettingsRefusal::{Full, Malformed, ValueLength, VersionFalls};
    let mut bytes = [7, 0, 1, 1, 9, 0xEE, 0xEE, 0xEE, 0xEE];
    let before = bytes;
    for (used, version, length, refusal) in [
        (4, 0, 65, Malformed),
        (10, 0, 65, Malformed),
        (usize::MAX, 0, 65, Malformed),
        (5, 0, 65, ValueLength),
        (5, 6, 64, VersionFalls),
        (5, 7, 1, Full),
    ] {
        let answer = add_setting(&mut bytes, used, 1, version, &vec![0; length]);
        assert_eq!(answer, Err(refusal));
        assert_eq!(bytes, before);
    }
    assert_eq!(add_setting(&mut bytes, 5, 1, 7, b""), Ok(9));
}
