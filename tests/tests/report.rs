//! Audit reports imported and exported by the proved code and by the reference: every character of a
//! report changed, lines moved, cut and joined, and lent texts around 1,728 bytes.

use lokhazim_reference::{QUOTAS, REPORT_BYTES};
use lokhazim_tests::run::boundary::report::Imported;
use lokhazim_tests::run::reports::{line, lines, random, Reports, LINE};
use lokhazim_tests::seed::Seed;

/// The seed of every case.
const SEED: u64 = 20_261_116;

/// What both sides give for a text.
fn import(reports: &mut Reports, text: &[u8]) -> Imported {
    let found = reports.import(text);
    found.unwrap_or_else(|failure| panic!("{failure}"))
}

/// What both sides leave in a lent text.
fn export(reports: &mut Reports, text: &[u8], grants: [u32; QUOTAS]) -> Vec<u8> {
    let left = reports.export(text, grants);
    left.unwrap_or_else(|failure| panic!("{failure}"))
}

/// What is expected of a text that is refused.
fn refused(refusal: u32, line: u32) -> Imported {
    Imported {
        grants: [0; QUOTAS],
        refusal,
        line,
    }
}

/// What is expected of a text with these grants.
fn taken(grants: &[u32]) -> Imported {
    let mut all = [0; QUOTAS];
    all[..grants.len()].copy_from_slice(grants);
    Imported {
        grants: all,
        refusal: 0,
        line: 0,
    }
}

/// A text of 32 lines with the grants 1 to 32.
fn full() -> Vec<u8> {
    (1..=32).flat_map(line).collect()
}

#[test]
fn the_rows_of_the_rules() {
    let mut reports = Reports::new();
    let good = line(4096);
    let mut expect = |text: &[u8], expected| assert_eq!(import(&mut reports, text), expected);
    let both = |front: &[u8], rest: &[u8]| [front, rest].concat();
    let with = |at: usize, byte: u8| {
        let mut text = line(4096);
        text[at] = byte;
        text
    };
    assert_eq!((REPORT_BYTES, good.len()), (1_728, LINE));
    expect(b"", taken(&[]));
    expect(&good, taken(&[4096]));
    expect(&both(&good, &line(u32::MAX)), taken(&[4096, u32::MAX]));
    expect(&full(), taken(&(1..=32).collect::<Vec<u32>>()));
    expect(&both(&full(), &good), refused(33, 33));
    expect(&both(&full(), b"\n"), refused(33, 33));
    expect(&both(&full(), b"x"), refused(33, 33));
    expect(&with(7, b'A'), refused(31, 1));
    expect(&with(53, b'\r'), refused(31, 1));
    expect(&both(&good[..53], b"\r\n"), refused(31, 1));
    expect(&good[..53], refused(31, 1));
    expect(&both(&good, &good[..53]), refused(31, 2));
    expect(&with(52, b'1'), refused(32, 1));
    let mut two = with(52, b'1');
    two[20] = b'G';
    expect(&two, refused(31, 1));
    expect(&both(&with(52, b'1'), &with(0, b'X')), refused(32, 1));
    expect(&both(&with(0, b'X'), &with(52, b'1')), refused(31, 1));
}

#[test]
fn no_line_to_34_lines() {
    let mut reports = Reports::new();
    let mut seed = Seed::new(SEED);
    for count in 0..=34 {
        let text = lines(&mut seed, count);
        let expected = if count > 32 { (33, 33) } else { (0, 0) };
        let found = import(&mut reports, &text);
        assert_eq!((found.refusal, found.line), expected, "{count} lines");
        for cut in [1, 2, 53] {
            let end = text.len().saturating_sub(cut);
            let short = import(&mut reports, &text[..end]);
            if (1..=32).contains(&count) {
                assert_eq!(short, refused(31, count as u32), "{count} lines");
            }
        }
    }
    assert_eq!(reports.imports()[3], 8);
}

#[test]
fn every_character_of_a_report_changed() {
    let mut reports = Reports::new();
    let text = full();
    for at in 0..text.len() {
        let here = text[at];
        for wrong in [
            b'0',
            b'9',
            b'a',
            b'f',
            b'A',
            b'g',
            b' ',
            b'\n',
            b'\r',
            0,
            here ^ 1,
            255,
        ] {
            let mut changed = text.clone();
            changed[at] = wrong;
            let found = import(&mut reports, &changed);
            let (row, column) = ((at / LINE + 1) as u32, at % LINE);
            let digit = wrong.is_ascii_digit() || (b'a'..=b'f').contains(&wrong);
            let expected = match (wrong == here, column % 9 != 8 && digit, column < 8) {
                (true, _, _) | (false, true, true) => (0, 0),
                (false, true, false) => (32, row),
                (false, false, _) => (31, row),
            };
            assert_eq!((found.refusal, found.line), expected, "{wrong} at {at}");
        }
    }
    println!("{:?}", reports.imports());
    assert!(reports.imports()[..3].iter().all(|count| *count > 1_000));
}

#[test]
fn every_byte_at_each_place_of_a_line() {
    let mut reports = Reports::new();
    for at in 0..LINE {
        for byte in 0..=u8::MAX {
            let mut text = [line(0x89ab_cdef), line(7)].concat();
            text[at] = byte;
            import(&mut reports, &text);
        }
    }
    assert_eq!(reports.imports().iter().sum::<u64>(), 54 * 256);
}

#[test]
fn lines_moved_cut_and_joined() {
    let mut reports = Reports::new();
    let text = full();
    for at in 0..=text.len() {
        import(&mut reports, &text[..at]);
        import(&mut reports, &text[at..]);
        let mut turned = text.clone();
        turned.rotate_left(at);
        import(&mut reports, &turned);
        for extra in [b'0', b' ', b'\n', b'\r'] {
            let mut longer = text[..at].to_vec();
            longer.push(extra);
            longer.extend(&text[at..]);
            import(&mut reports, &longer);
        }
    }
    for row in 0..32 {
        let mut joined = text.clone();
        joined.remove(row * LINE + 53);
        assert_eq!(import(&mut reports, &joined), refused(31, row as u32 + 1));
        let mut dropped = text.clone();
        dropped.drain(row * LINE..(row + 1) * LINE);
        assert_eq!(import(&mut reports, &dropped).refusal, 0);
    }
    println!("{:?}", reports.imports());
}

#[test]
fn random_texts() {
    let mut reports = Reports::new();
    for n in 0..20_000 {
        random(&mut reports, SEED, n).unwrap_or_else(|failure| panic!("{failure}"));
    }
    println!("{:?} {:?}", reports.imports(), reports.exports());
    assert!(reports.imports().iter().all(|count| *count > 200));
    assert!(reports.exports().iter().all(|count| *count > 5_000));
}

#[test]
fn any_bytes() {
    let mut reports = Reports::new();
    for n in 0..2_000 {
        let mut seed = Seed::of_case(SEED + 1, n);
        let length = seed.place(200);
        let text: Vec<u8> = (0..length).map(|_| seed.byte()).collect();
        import(&mut reports, &text);
    }
}

#[test]
fn grants_go_out_and_come_back() {
    let mut reports = Reports::new();
    for n in 0..500 {
        let mut seed = Seed::of_case(SEED + 2, n);
        let grants: [u32; QUOTAS] = std::array::from_fn(|_| seed.odd_word());
        let text: Vec<u8> = (0..REPORT_BYTES).map(|_| seed.byte()).collect();
        let written = export(&mut reports, &text, grants);
        assert_eq!(
            written,
            grants.into_iter().flat_map(line).collect::<Vec<u8>>()
        );
        assert_eq!(import(&mut reports, &written), taken(&grants));
        let again = import(&mut reports, &written).grants;
        assert_eq!(export(&mut reports, &written, again), written);
    }
}

#[test]
fn lent_texts_around_1728_bytes() {
    let mut reports = Reports::new();
    let grants = std::array::from_fn(|quota| (quota as u32).wrapping_mul(0x0fed_cba9));
    for length in (0..4).chain(1_720..1_790).chain([4_096]) {
        let before = vec![b'~'; length];
        let after = export(&mut reports, &before, grants);
        match length < 1_728 {
            true => assert_eq!(after, before),
            false => assert_eq!(after[1_728..], before[1_728..]),
        }
    }
    assert_eq!(reports.exports(), [63, 12]);
}
