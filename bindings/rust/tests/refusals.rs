//! The refusals and the constants, held to those of the C header.

#[allow(dead_code)]
mod support;

use std::error::Error;

use support::{in_capitals, refusals_of_header, text_of};

use lokhazim::{
    Edition, ImageRefusal, Kind, Permissions, QueueRefusal, Refusal, ReportRefusal,
    SettingsRefusal, FORM_1_HOLDS, FORM_1_QUOTAS, HEAP_MAX, HEAP_MIN, HOLDS, IMAGE_MAX,
    IMAGE_MAX_FORM_1, QUOTAS, REQUEST_MAX,
};

/// The refusal that the C headers give by themselves, where a pointer is null or a heap not aligned.
const BAD_POINTER: u32 = 100;

/// The text of the header of calls.
fn header() -> String {
    text_of("include/lokhazim.h")
}

#[test]
fn the_header_has_the_same_refusals() {
    let refusals = refusals_of_header();
    for refusal in Refusal::ALL {
        let name = in_capitals(&format!("{refusal:?}"));
        let line = format!("{name} = {}", refusal.number());
        assert!(refusals.contains(&line), "the header lacks '{line}'");
    }
}

#[test]
fn the_header_has_the_same_constants() {
    let header = header();
    for (name, value) in [
        ("QUOTAS", QUOTAS),
        ("HOLDS", HOLDS),
        ("HEAP_MIN", HEAP_MIN),
        ("HEAP_MAX", HEAP_MAX),
        ("REQUEST_MAX", REQUEST_MAX as usize),
        ("ALIGNMENT", align_of::<lokhazim::Aligned<64>>()),
        ("MAY_ALLOCATE", Permissions::ALLOCATE.bits().into()),
        ("MAY_CLAIM", Permissions::CLAIM.bits().into()),
        ("MAY_FREE_ALL", Permissions::FREE_ALL.bits().into()),
        ("MAY_ALL", Permissions::ALL.bits().into()),
    ] {
        let line = format!("#define LOKHAZIM_{name} {value}\n");
        assert!(header.contains(&line), "the header lacks the line '{line}'");
    }
    for (name, value) in [
        ("PLAIN", Kind::Plain.number()),
        ("QUARANTINE", Kind::Quarantine.number()),
        ("EDITION_1", Edition::First.number()),
        ("EDITION_2", Edition::Second.number()),
    ] {
        let line = format!("    LOKHAZIM_{name} = {value}");
        assert!(header.contains(&line), "the header lacks the line '{line}'");
    }
}

#[test]
fn the_header_of_images_has_the_same_constants() {
    let header = text_of("include/lokhazim_image.h");
    for (name, value) in [
        ("IMAGE_MAX", IMAGE_MAX),
        ("IMAGE_MAX_FORM_1", IMAGE_MAX_FORM_1),
        ("FORM_1_QUOTAS", FORM_1_QUOTAS),
        ("FORM_1_HOLDS", FORM_1_HOLDS),
    ] {
        let line = format!("#define LOKHAZIM_{name} {value}\n");
        assert!(header.contains(&line), "the header lacks the line '{line}'");
    }
}

#[test]
fn the_header_has_each_number_once() {
    let refusals = refusals_of_header();
    let numbers: Vec<u32> = refusals
        .iter()
        .map(|line| line.rsplit(' ').next().expect("a number"))
        .map(|number| number.parse().expect("a number"))
        .collect();
    assert!(numbers.is_sorted_by(|one, next| one < next), "{numbers:?}");
    for number in 0..=200 {
        let images = ImageRefusal::from_number(number).is_some();
        let queues = QueueRefusal::from_number(number).is_some();
        let beside = ReportRefusal::from_number(number).is_some()
            || SettingsRefusal::from_number(number).is_some();
        let known = images || queues || beside || [0, BAD_POINTER].contains(&number);
        assert_eq!(numbers.contains(&number), known, "{number}");
    }
}

#[test]
fn numbers_run_from_1_to_12_and_back() {
    for (place, refusal) in Refusal::ALL.into_iter().enumerate() {
        assert_eq!(refusal.number() as usize, place + 1);
        assert_eq!(Refusal::from_number(refusal.number()), Some(refusal));
    }
    assert_eq!(Refusal::from_number(0), None);
    assert_eq!(Refusal::from_number(13), None);
}

#[test]
fn each_text_names_the_number_and_says_what_to_do() {
    for refusal in Refusal::ALL {
        let error: &dyn Error = &refusal;
        let text = error.to_string();
        assert!(text.starts_with(&format!("refusal {}: ", refusal.number())));
        assert!(text.contains("; "), "'{text}' does not say what to do");
    }
}
