//! The kind in images: its byte, both readers, moves and comparisons.

use crate::images::{refused, seal, with};
use crate::state::*;
use lokhazim_reference::Difference::{Bytes, Kind as KindDiffers, LastSerial, Quota, Record};
use lokhazim_reference::*;

/// A heap of 64 bytes with quarantine, in which a block waits and another is live.
fn waiting() -> State {
    let kind = Kind::Quarantine;
    let mut state = opened_with(64, &[100, 200], of_kind(kind));
    let gone = state.allocated(0, 16);
    state.allocated(1, 8);
    state.number(Call::Release(0, gone));
    state
}

/// The image of a state in form 2.
fn image(state: &State) -> Vec<u8> {
    let mut image = vec![0; image_length(state.heap.len())];
    let answer = write_image(&mut image, &state.heap, &state.accounts);
    assert_eq!(answer, Ok(image.len()));
    image
}

/// The answer of form 1's writer with enough lent bytes, as a number.
fn form_1(state: &State) -> Result<usize, u8> {
    let mut image = [0; 4_096];
    let answer = write_form_1(&mut image, &state.heap, &state.accounts);
    answer.map_err(ImageRefusal::number)
}

/// The state that an image is read as.
fn read(image: &[u8], heap_bytes: usize) -> State {
    let mut heap = vec![6; heap_bytes];
    let accounts = read_image(image, &mut heap).expect("the image is good");
    State { heap, accounts }
}

#[test]
fn byte_3_of_form_2_holds_the_kind() {
    let plain = opened(64, &[100]);
    let mut with_quarantine = plain.clone();
    with_quarantine.accounts.kind = 1;
    let expected = with(&image(&plain), 7, 1);
    assert_eq!(image(&with_quarantine), expected);
    assert!(read(&expected, 64) == with_quarantine);
    assert!(read(&image(&waiting()), 64) == waiting());
}

#[test]
fn other_numbers_give_23_and_form_1_takes_0_alone() {
    let two = image(&waiting());
    let mut one = vec![0; image_length_form_1(64)];
    let plain = opened(64, &[100]);
    assert!(write_form_1(&mut one, &plain.heap, &plain.accounts).is_ok());
    for number in 2..=255 {
        assert_eq!(refused(&with(&two, 7, number), 64), 23);
    }
    for number in 1..=255 {
        assert_eq!(refused(&with(&one, 7, number), 64), 23);
    }
    let mut later_refusals = with(&two, 7, 2);
    later_refusals[8] = 65;
    seal(&mut later_refusals);
    assert_eq!(refused(&later_refusals, 64), 23, "before 24");
}

#[test]
fn soundness_of_an_image_is_that_of_its_kind() {
    let two = image(&waiting());
    assert_eq!(refused(&with(&two, 7, 0), 64), 26, "a waiting block");
    let mut serial = two.clone();
    serial[12..16].fill(255);
    seal(&mut serial);
    assert_eq!(refused(&serial, 64), 26, "the last serial");
    assert_eq!(refused(&serial, 72), 25);
    serial[12] = 254;
    seal(&mut serial);
    assert_eq!(read(&serial, 64).accounts.last_serial, u32::MAX - 1);
}

#[test]
fn form_1_has_no_room_for_quarantine() {
    let mut fresh = opened(64, &[100]);
    assert_eq!(form_1(&fresh), Ok(1_536));
    fresh.accounts.kind = 1;
    assert_eq!(form_1(&fresh), Err(28), "also with nothing in quarantine");
    assert_eq!(form_1(&waiting()), Err(28));
    let number = write_form_1(&mut [], &fresh.heap, &fresh.accounts);
    assert_eq!(number.map_err(ImageRefusal::number), Err(28), "before 25");
    fresh.accounts.kind = 2;
    assert_eq!(form_1(&fresh), Err(2));
}

#[test]
fn moves_take_the_kind_as_the_readers_and_writers_do() {
    let two = image(&waiting());
    let mut output = [9; 8_192];
    let mut number = |by: fn(&[u8], &mut [u8]) -> Result<usize, ImageRefusal>, image: &[u8]| {
        by(image, &mut output).map_err(ImageRefusal::number)
    };
    assert_eq!(number(move_down, &two), Err(28));
    assert_eq!(number(move_down, &with(&two, 7, 2)), Err(23));
    assert_eq!(number(move_down, &with(&two, 7, 0)), Err(26));
    assert_eq!(number(move_up, &with(&two, 4, 1)), Err(23));
    assert_eq!(output, [9; 8_192]);
}

#[test]
fn a_differing_kind_is_listed_after_the_serial() {
    let plain = opened(64, &[100, 200]);
    let mut other = plain.clone();
    other.accounts.kind = 1;
    let listed = |a: &State, b: &State| differences(&image(a), &image(b));
    assert_eq!(listed(&plain, &other), Ok(vec![KindDiffers]));
    assert_eq!(listed(&other, &plain), Ok(vec![KindDiffers]));
    assert_eq!(listed(&other, &other), Ok(vec![]));
    let expected = vec![
        LastSerial,
        KindDiffers,
        Quota(1),
        Record(1),
        Bytes(0, 1),
        Bytes(4, 4),
        Bytes(24, 1),
        Bytes(26, 1),
        Bytes(28, 1),
        Bytes(40, 1),
        Bytes(42, 1),
    ];
    assert_eq!(listed(&plain, &waiting()), Ok(expected));
}
