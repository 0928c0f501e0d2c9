//! Settings with versions: what is found where, what is malformed, and adding.

use crate::prng::Prng;
use lokhazim_reference::*;

/// The bytes of an entry.
fn entry(version: u16, name: u8, value: &[u8]) -> Vec<u8> {
    let [low, high] = version.to_le_bytes();
    [&[low, high, name, value.len() as u8], value].concat()
}

/// The bytes of a store with these entries.
fn store(entries: &[(u16, u8, &[u8])]) -> Vec<u8> {
    let entries = entries.iter().map(|(v, n, value)| entry(*v, *n, value));
    entries.collect::<Vec<_>>().concat()
}

/// A store whose bytes are all used.
fn whole(bytes: &[u8]) -> Store<'_> {
    let used = bytes.len();
    Store { bytes, used }
}

/// The value of a name at a version, or the refusal's number.
fn ask<'a>(board: &'a [u8], defaults: &'a [u8], name: u8, version: u16) -> Result<&'a [u8], u8> {
    let found = setting(whole(board), whole(defaults), name, version);
    found.map_err(SettingRefusal::number)
}

/// Adds an entry and gives the used length, or the refusal's number after checking that
/// nothing was written.
fn add(bytes: &mut [u8], used: usize, version: u16, name: u8, value: &[u8]) -> Result<usize, u8> {
    let before = bytes.to_vec();
    let answer = add_setting(bytes, used, version, name, value);
    match answer {
        Ok(new) => {
            assert_eq!(bytes[..used], before[..used]);
            assert_eq!(bytes[used..new], entry(version, name, value));
            assert_eq!(bytes[new..], before[new..]);
        }
        Err(_) => assert_eq!(bytes, before, "a refusal writes nothing"),
    }
    answer.map_err(SettingRefusal::number)
}

#[test]
fn the_last_entry_not_above_the_version_is_given() {
    let board = store(&[
        (1, 5, b"a"),
        (3, 5, b"b"),
        (3, 6, b"x"),
        (3, 5, b"cc"),
        (9, 5, b""),
    ]);
    assert_eq!(ask(&board, &[], 5, 0), Err(42));
    assert_eq!(ask(&board, &[], 5, 1), Ok(&b"a"[..]));
    assert_eq!(ask(&board, &[], 5, 2), Ok(&b"a"[..]));
    assert_eq!(ask(&board, &[], 5, 3), Ok(&b"cc"[..]));
    assert_eq!(ask(&board, &[], 6, 8), Ok(&b"x"[..]));
    assert_eq!(ask(&board, &[], 5, 8), Ok(&b"cc"[..]));
    assert_eq!(ask(&board, &[], 5, 9), Ok(&b""[..]));
    assert_eq!(ask(&board, &[], 5, u16::MAX), Ok(&b""[..]));
    assert_eq!(ask(&board, &[], 7, u16::MAX), Err(42));
}

#[test]
fn versions_are_little_endian() {
    let board = [0x01, 0x02, 9, 1, 77];
    assert_eq!(ask(&board, &[], 9, 0x0200), Err(42));
    assert_eq!(ask(&board, &[], 9, 0x0201), Ok(&[77][..]));
}

#[test]
fn the_board_comes_before_the_defaults_even_with_an_older_entry() {
    let board = store(&[(2, 1, b"board"), (7, 2, b"late")]);
    let defaults = store(&[(1, 1, b"d1"), (2, 2, b"d2"), (5, 1, b"d5")]);
    assert_eq!(ask(&board, &defaults, 1, 1), Ok(&b"d1"[..]));
    assert_eq!(ask(&board, &defaults, 1, 9), Ok(&b"board"[..]));
    assert_eq!(ask(&board, &defaults, 2, 6), Ok(&b"d2"[..]));
    assert_eq!(ask(&board, &defaults, 2, 7), Ok(&b"late"[..]));
    assert_eq!(ask(&board, &defaults, 3, 9), Err(42));
    let find = |name, version| find_setting(whole(&board), whole(&defaults), name, version);
    assert_eq!(find(1, 9), Ok((Source::Board, 4..9)));
    assert_eq!(find(2, 6), Ok((Source::Defaults, 10..12)));
}

#[test]
fn an_empty_value_of_the_board_hides_the_defaults() {
    let board = store(&[(0, 1, b"")]);
    let defaults = store(&[(0, 1, b"default")]);
    assert_eq!(ask(&board, &defaults, 1, 0), Ok(&b""[..]));
}

#[test]
fn values_have_up_to_64_bytes() {
    let board = store(&[(0, 0, &[1; 64]), (0, 255, &[2; 63])]);
    assert_eq!(ask(&board, &[], 0, 0), Ok(&[1; 64][..]));
    assert_eq!(ask(&board, &[], 255, 0), Ok(&[2; 63][..]));
    assert_eq!(ask(&store(&[(0, 0, &[1; 65])]), &[], 0, 0), Err(41));
}

/// Stores that are no run of entries, with their used lengths.
fn malformed() -> Vec<(Vec<u8>, usize)> {
    let good = store(&[(1, 1, b"abc")]);
    let mut all: Vec<(Vec<u8>, usize)> = (1..7).map(|used| (good.clone(), used)).collect();
    all.push((good.clone(), 8));
    all.push((good, usize::MAX));
    all.push((Vec::new(), 1));
    all.push((store(&[(0, 1, &[0; 65])]), 69));
    all.push((vec![0, 0, 1, 255], 4));
    all.push((store(&[(5, 1, b""), (4, 2, b"")]), 8));
    all.push((store(&[(0x0100, 1, b""), (0x00FF, 1, b"")]), 8));
    all.push((store(&[(5, 1, b""), (9, 1, b""), (8, 1, b"")]), 12));
    all
}

#[test]
fn a_malformed_store_gives_41_in_either_place() {
    let good = store(&[(0, 1, b"good"), (0, 1, b"better")]);
    for (bytes, used) in malformed() {
        let bad = Store {
            bytes: &bytes,
            used,
        };
        for name in [1, 9] {
            let number = |board, defaults| {
                let found = setting(board, defaults, name, 9);
                found.map_err(SettingRefusal::number)
            };
            assert_eq!(number(bad, whole(&good)), Err(41));
            assert_eq!(number(whole(&good), bad), Err(41));
            assert_eq!(number(bad, bad), Err(41));
        }
        let mut bytes = bytes.clone();
        assert_eq!(add(&mut bytes, used, 0, 1, &[0; 65]), Err(41));
    }
}

#[test]
fn bytes_behind_the_used_ones_mean_nothing() {
    let mut bytes = store(&[(1, 1, b"abc"), (0, 1, b"fall")]);
    bytes.push(3);
    for (used, expected) in [(0, Err(42)), (7, Ok(&b"abc"[..])), (15, Err(41))] {
        let store = Store {
            bytes: &bytes,
            used,
        };
        let found = setting(store, whole(&[]), 1, 9);
        assert_eq!(found.map_err(SettingRefusal::number), expected);
    }
}

#[test]
fn adding_writes_behind_the_used_bytes() {
    let mut bytes = [0xEE; 20];
    assert_eq!(add(&mut bytes, 0, 0x0102, 3, b"ab"), Ok(6));
    assert_eq!(bytes[..6], [0x02, 0x01, 3, 2, b'a', b'b']);
    assert_eq!(add(&mut bytes, 6, 0x0102, 3, b""), Ok(10));
    assert_eq!(add(&mut bytes, 10, 0x0103, 3, b"abcdef"), Ok(20));
    assert_eq!(add(&mut bytes, 20, 0x0103, 3, b""), Err(45));
}

#[test]
fn the_refusals_of_adding_in_their_order() {
    let mut bytes = store(&[(7, 1, b"abc")]);
    bytes.extend([0xEE; 6]);
    assert_eq!(add(&mut bytes, 6, 0, 1, &[0; 65]), Err(41));
    assert_eq!(add(&mut bytes, 14, 0, 1, &[0; 65]), Err(41));
    assert_eq!(add(&mut bytes, 7, 0, 1, &[0; 65]), Err(43));
    assert_eq!(add(&mut bytes, 7, 6, 1, &[0; 64]), Err(44));
    assert_eq!(add(&mut bytes, 7, 7, 1, &[0; 64]), Err(45));
    assert_eq!(add(&mut bytes, 7, 7, 1, &[0; 3]), Err(45));
    assert_eq!(add(&mut bytes, 7, 7, 1, &[0; 2]), Ok(13));
    assert_eq!(add(&mut bytes, 0, 0, 1, &[0; 2]), Ok(6), "an empty store");
    for left in 0..4 {
        assert_eq!(add(&mut vec![0; left], 0, 0, 0, &[]), Err(45));
    }
    let mut longest = vec![0; 68];
    assert_eq!(add(&mut longest, 0, u16::MAX, 255, &[9; 64]), Ok(68));
    assert_eq!(add(&mut longest[..67], 0, 0, 0, &[9; 64]), Err(45));
}

#[test]
fn older_answers_stay_when_a_newer_entry_comes() {
    let mut prng = Prng::new(51);
    for _ in 0..100 {
        let mut bytes = vec![0; 300];
        let (mut used, mut version) = (0, 0);
        loop {
            let before: Vec<_> = (0..40).map(|n| answer(&bytes[..used], n)).collect();
            version += prng.below(3) as u16;
            let value = vec![prng.byte(); prng.index(20)];
            let name = prng.below(4) as u8;
            match add(&mut bytes, used, version, name, &value) {
                Ok(new) => used = new,
                Err(number) => {
                    assert_eq!(number, 45);
                    break;
                }
            }
            for (n, before) in before.into_iter().enumerate() {
                if asked(n as u16).1 < version {
                    assert_eq!(answer(&bytes[..used], n as u16), before);
                }
            }
            assert_eq!(ask(&bytes[..used], &[], name, version), Ok(&value[..]));
        }
    }
}

/// The name and the version of the n-th question.
fn asked(n: u16) -> (u8, u16) {
    ((n % 4) as u8, n / 4)
}

/// The answer to the n-th question.
fn answer(board: &[u8], n: u16) -> Result<Vec<u8>, u8> {
    let (name, version) = asked(n);
    ask(board, &[], name, version).map(<[u8]>::to_vec)
}
