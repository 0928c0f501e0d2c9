//! Grants from and to the lines of an audit report.

use crate::prng::Prng;
use crate::state::grants;
use lokhazim_reference::*;

/// The line of the source document, whose grant is 4,096.
const LINE: &str = "00001000 00000000 00000000 00000000 00000000 00000000\n";

/// The grants of a text, or the refusal's number and the line's.
fn import(text: &str) -> Result<[u32; QUOTAS], (u8, usize)> {
    import_bytes(text.as_bytes())
}

/// The grants of any bytes, or the refusal's number and the line's.
fn import_bytes(text: &[u8]) -> Result<[u32; QUOTAS], (u8, usize)> {
    import_grants(text).map_err(|(refusal, line)| (refusal.number(), line))
}

/// The report of grants.
fn export(grants: [u32; QUOTAS]) -> Vec<u8> {
    let mut text = vec![0; 1_728];
    assert_eq!(export_grants(grants, &mut text), Ok(1_728));
    text
}

/// A line with this first word.
fn line(grant: &str) -> String {
    format!("{grant} 00000000 00000000 00000000 00000000 00000000\n")
}

#[test]
fn lines_are_grants_and_missing_ones_are_zero() {
    assert_eq!(import(""), Ok([0; QUOTAS]));
    assert_eq!(import(LINE), Ok(grants(&[4_096])));
    let two = line("ffffffff") + &line("0a1b2c3d");
    assert_eq!(import(&two), Ok(grants(&[u32::MAX, 0x0A1B_2C3D])));
    assert_eq!(import(&LINE.repeat(32)), Ok([4_096; 32]));
}

#[test]
fn a_wrong_character_or_place_gives_31() {
    let zero = "00000000";
    let wrong = [
        "\n".to_string(),
        "x".to_string(),
        " ".to_string(),
        LINE.trim_end().to_string(),
        LINE.replace('\n', "\r\n"),
        LINE.replace('\n', " \n"),
        LINE.replace('\n', "\0"),
        format!(" {LINE}"),
        LINE.replacen(' ', "  ", 1),
        LINE.replacen(' ', "\t", 1),
        LINE.replacen(' ', "", 1),
        LINE.replacen(' ', "0", 1),
        LINE.replacen(" 00000000", "", 1),
        LINE.replacen("00001000", "00001000 00000000", 1),
        LINE.replacen("00001000", "0001000", 1),
        LINE.replacen("00001000", "000010000", 1),
        LINE.replacen("00001000", "0000100", 1) + "0",
        LINE.replacen("00001000 0", "0000100 00", 1),
        LINE.replacen("00001000", "+0001000", 1),
        LINE.replacen("00001000", "0x001000", 1),
        line("0000100G"),
        line("0000100g"),
        line("0000100A"),
        line("0000100F"),
        line("000010/0"),
        line("000010:0"),
        line("000010`0"),
        line("000010@0"),
        LINE.replacen(zero, "0000000A", 1),
        LINE.replacen(zero, "0000 000", 1),
    ];
    for text in wrong {
        assert_eq!(import(&text), Err((31, 1)), "{text:?}");
        assert_eq!(import(&(LINE.repeat(4) + &text)), Err((31, 5)), "{text:?}");
    }
}

#[test]
fn every_byte_at_every_place_of_a_line() {
    for place in 0..54 {
        for byte in 0..=255 {
            let mut text = LINE.repeat(2).into_bytes();
            text[54 + place] = byte;
            let right = match place {
                53 => byte == b'\n',
                8 | 17 | 26 | 35 | 44 => byte == b' ',
                _ => b"0123456789abcdef".contains(&byte),
            };
            let answer = import_bytes(&text);
            if !right {
                assert_eq!(answer, Err((31, 2)));
            } else if (9..53).contains(&place) && byte != b' ' && byte != b'0' {
                assert_eq!(answer, Err((32, 2)));
            } else {
                assert!(answer.is_ok());
            }
        }
    }
}

#[test]
fn every_length_of_a_text_of_good_lines() {
    let text = LINE.repeat(32);
    for length in 0..=text.len() {
        let answer = import(&text[..length]);
        if length % 54 == 0 {
            assert!(answer.is_ok());
        } else {
            assert_eq!(answer, Err((31, length / 54 + 1)));
        }
    }
}

#[test]
fn a_word_behind_the_first_that_is_not_zero_gives_32() {
    for word in 1..6 {
        let mut words = ["00000000"; 6];
        words[0] = "00000010";
        words[word] = "00000001";
        let text = words.join(" ") + "\n";
        assert_eq!(import(&text), Err((32, 1)));
        words[word] = "80000000";
        let text = line("00000007") + &words.join(" ") + "\n";
        assert_eq!(import(&text), Err((32, 2)));
    }
}

#[test]
fn the_first_bad_line_decides_and_31_comes_before_32_in_it() {
    let not_zero = "00000001 00000001 00000000 00000000 00000000 00000000\n";
    let shape = "zzz\n";
    assert_eq!(import(&format!("{LINE}{not_zero}{shape}")), Err((32, 2)));
    assert_eq!(import(&format!("{LINE}{shape}{not_zero}")), Err((31, 2)));
    let both = not_zero.replacen("00000000", "0000000X", 1);
    assert_eq!(import(&both), Err((31, 1)));
    assert_eq!(import(not_zero.trim_end()), Err((31, 1)));
}

#[test]
fn anything_behind_32_good_lines_gives_33() {
    let full = LINE.repeat(32);
    for behind in [LINE, "\n", "x", " ", "\n\n", "zzz\nzzz\n"] {
        assert_eq!(import(&format!("{full}{behind}")), Err((33, 33)));
    }
    let last_bad = LINE.repeat(31) + "zzz\n" + LINE;
    assert_eq!(import(&last_bad), Err((31, 32)));
    assert_eq!(import(&LINE.repeat(100)), Err((33, 33)));
}

#[test]
fn export_writes_32_lines() {
    let text = export(grants(&[4_096, 0xABCD_EF01]));
    let rest = line("00000000").repeat(30);
    let expected = format!("{LINE}{}{rest}", line("abcdef01"));
    assert_eq!(String::from_utf8(text), Ok(expected));
    assert_eq!(REPORT_BYTES, 1_728);
}

#[test]
fn export_needs_1728_bytes_and_leaves_those_behind() {
    for length in [0, 1, 54, 1_727] {
        let mut text = vec![0x2A; length];
        let answer = export_grants([1; QUOTAS], &mut text);
        assert_eq!(answer.map_err(ReportRefusal::number), Err(34));
        assert_eq!(text, vec![0x2A; length], "nothing is written");
    }
    let mut text = vec![0x2A; 1_800];
    assert_eq!(export_grants([1; QUOTAS], &mut text), Ok(1_728));
    assert_eq!(text[1_728..], [0x2A; 72]);
}

#[test]
fn there_and_back() {
    let mut prng = Prng::new(41);
    for _ in 0..200 {
        let grants = [0; QUOTAS].map(|_| prng.odd_word());
        let text = export(grants);
        assert_eq!(import_bytes(&text), Ok(grants));
        assert_eq!(export(grants), text);
    }
}
