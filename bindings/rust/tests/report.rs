//! The audit report: grants go out and come back, and the refusals are those of the C header.

#[allow(dead_code)]
mod support;

use std::error::Error;

use support::{in_capitals, refusals_of_header, text_of};

use lokhazim::{
    export_grants, import_grants, ImportRefusal, ReportRefusal, QUOTAS, REPORT_LENGTH, REPORT_LINE,
};

/// The line of a grant.
fn line(grant: u32) -> String {
    format!("{grant:08x} 00000000 00000000 00000000 00000000 00000000\n")
}

/// The refusal of a text, and its line.
fn refused(text: &str) -> (ReportRefusal, u32) {
    let ImportRefusal { refusal, line } = import_grants(text.as_bytes()).unwrap_err();
    (refusal, line)
}

#[test]
fn the_header_has_the_same_numbers() {
    let refusals = refusals_of_header();
    for refusal in ReportRefusal::ALL {
        let name = in_capitals(&format!("{refusal:?}"));
        let line = format!("REPORT_{name} = {}", refusal.number());
        assert!(refusals.contains(&line), "the header lacks '{line}'");
    }
    let header = text_of("include/lokhazim_report.h");
    for line in [
        format!(
            "#define LOKHAZIM_REPORT_LINE {REPORT_LINE}
"
        ),
        format!(
            "#define LOKHAZIM_REPORT_LENGTH {REPORT_LENGTH}
"
        ),
    ] {
        assert!(header.contains(&line), "the header lacks the line '{line}'");
    }
    assert_eq!(REPORT_LENGTH, QUOTAS * REPORT_LINE);
}

#[test]
fn numbers_run_from_31_to_34_and_back() {
    for (number, refusal) in (31..).zip(ReportRefusal::ALL) {
        assert_eq!(refusal.number(), number);
        assert_eq!(ReportRefusal::from_number(number), Some(refusal));
    }
    assert_eq!(ReportRefusal::from_number(0), None);
    assert_eq!(ReportRefusal::from_number(35), None);
}

#[test]
fn each_text_names_the_number_and_says_what_to_do() {
    for refusal in ReportRefusal::ALL {
        let error: &dyn Error = &refusal;
        let text = error.to_string();
        assert!(text.starts_with(&format!("refusal {}: ", refusal.number())));
        assert!(text.contains("; "), "'{text}' does not say what to do");
    }
    let refused = import_grants(b"\n").unwrap_err();
    assert!(refused.to_string().starts_with("line 1: refusal 31: "));
}

#[test]
fn grants_go_out_and_come_back() {
    let grants = std::array::from_fn(|i| (i as u32 + 1).wrapping_mul(0x9E37_79B1));
    let mut text = [b'~'; REPORT_LENGTH + 3];
    assert_eq!(export_grants(grants, &mut text), Ok(REPORT_LENGTH));
    let lines: String = grants.into_iter().map(line).collect();
    assert_eq!(text[..REPORT_LENGTH], *lines.as_bytes());
    assert_eq!(text[REPORT_LENGTH..], *b"~~~");
    assert_eq!(import_grants(&text[..REPORT_LENGTH]), Ok(grants));
}

#[test]
fn each_refusal() {
    use ReportRefusal::{Character, Reserved, Room, TooMany};
    let full: String = (0..32).map(line).collect();
    assert_eq!(import_grants(b""), Ok([0; QUOTAS]));
    assert_eq!(
        refused(&format!("{}{}", line(1), line(10).replace('a', "A"))),
        (Character, 2)
    );
    assert_eq!(refused(&line(1).replace('\n', "\r\n")), (Character, 1));
    assert_eq!(refused(line(1).trim_end()), (Character, 1));
    assert_eq!(
        refused(&line(1).replace(" 00000000\n", " 00000001\n")),
        (Reserved, 1)
    );
    assert_eq!(refused(&format!("{full}\n")), (TooMany, 33));
    assert_eq!(refused(&format!("{full}{}", line(1))), (TooMany, 33));
    let mut short = [b'~'; REPORT_LENGTH - 1];
    assert_eq!(export_grants([1; QUOTAS], &mut short), Err(Room));
    assert_eq!(short, [b'~'; REPORT_LENGTH - 1]);
}
