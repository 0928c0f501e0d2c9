//! Comparing images: what is listed, in which order, and the refusals.

use lokhazim_reference::Difference::{Bytes, LastSerial, Quota, Record};
use lokhazim_reference::*;

use crate::state::grants;

/// A heap of 128 bytes with two objects of 16, in which bytes can be written.
fn two_objects() -> (Vec<u8>, Accounts) {
    let mut heap = vec![0; 128];
    let (mut accounts, opened) = open(&mut heap, grants(&[500, 500]));
    assert_eq!(opened, Ok(()));
    for quota in 0..2 {
        allocate(&mut heap, &mut accounts, quota, 16).expect("there is room");
    }
    (heap, accounts)
}

/// The image of a state in form 1.
fn image_1(heap: &[u8], accounts: &Accounts) -> Vec<u8> {
    let mut image = vec![0; image_length_form_1(heap.len())];
    write_form_1(&mut image, heap, accounts).expect("form 1 has room for the state");
    image
}

/// The image of a state.
fn image(heap: &[u8], accounts: &Accounts) -> Vec<u8> {
    let mut image = vec![0; image_length(heap.len())];
    write_image(&mut image, heap, accounts).expect("the state is sound");
    image
}

#[test]
fn equal_states_have_no_difference() {
    let (heap, accounts) = two_objects();
    let image = image(&heap, &accounts);
    assert_eq!(differences(&image, &image), Ok(vec![]));
}

#[test]
fn runs_are_longest_and_do_not_touch() {
    let (heap, accounts) = two_objects();
    let mut other = heap.clone();
    for place in [8, 9, 11, 23, 127] {
        other[place] = 1;
    }
    assert_eq!(
        differences(&image(&heap, &accounts), &image(&other, &accounts)),
        Ok(vec![Bytes(8, 2), Bytes(11, 1), Bytes(23, 1), Bytes(127, 1)])
    );
}

#[test]
fn serial_quotas_records_and_bytes_in_this_order() {
    let (heap, accounts) = two_objects();
    let (mut other, mut changed) = (heap.clone(), accounts.clone());
    let handle = allocate(&mut other, &mut changed, 1, 8).expect("there is room");
    release(&mut other, &mut changed, 1, handle).expect("it is held");
    changed.holds.swap(0, 5);
    changed.quotas[0].grant += 1;
    changed.quotas[0].remainder += 1;
    other[8] = 3;
    assert_eq!(
        differences(&image(&heap, &accounts), &image(&other, &changed)),
        Ok(vec![
            LastSerial,
            Quota(0),
            Record(0),
            Record(5),
            Bytes(8, 1)
        ])
    );
}

#[test]
fn refusals_name_the_image_that_they_are_about() {
    let (heap, accounts) = two_objects();
    let good = image(&heap, &accounts);
    let mut short = vec![0; 64];
    let (fresh, _) = open(&mut short, grants(&[500, 500]));
    let other = image(&short, &fresh);
    let damaged = &good[..512];
    let refused = |a: &[u8], b: &[u8]| {
        let (refusal, which) = differences(a, b).expect_err("a refusal");
        (refusal.number(), which)
    };
    assert_eq!(refused(damaged, &good), (22, Which::First));
    assert_eq!(refused(&good, damaged), (22, Which::Second));
    assert_eq!(refused(&[], damaged), (21, Which::First));
    assert_eq!(refused(&good, &other), (27, Which::Neither));
}

#[test]
fn permissions_are_a_part_of_a_quota() {
    let (heap, accounts) = two_objects();
    let mut changed = accounts.clone();
    for quota in [0, 9, 31] {
        clear_permissions(&heap, &mut changed, quota, 2).expect("the state is sound");
    }
    changed.quotas[9].grant = 3;
    changed.quotas[9].remainder = 3;
    assert_eq!(
        differences(&image(&heap, &accounts), &image(&heap, &changed)),
        Ok(vec![Quota(0), Quota(9), Quota(31)])
    );
}

#[test]
fn records_of_all_places_are_listed() {
    let (heap, accounts) = two_objects();
    let mut changed = accounts.clone();
    changed.holds.swap(1, 128);
    changed.holds.swap(0, 511);
    assert_eq!(
        differences(&image(&heap, &accounts), &image(&heap, &changed)),
        Ok(vec![Record(0), Record(1), Record(128), Record(511)])
    );
}

#[test]
fn two_images_of_form_1_are_compared_as_well() {
    let (heap, accounts) = two_objects();
    let mut changed = accounts.clone();
    changed.holds.swap(1, 127);
    changed.quotas[7].grant = 1;
    changed.quotas[7].remainder = 1;
    let (first, second) = (image_1(&heap, &accounts), image_1(&heap, &changed));
    assert_eq!(differences(&first, &first), Ok(vec![]));
    assert_eq!(
        differences(&first, &second),
        Ok(vec![Quota(7), Record(1), Record(127)])
    );
}

#[test]
fn two_forms_are_refused_behind_a_bad_image_and_before_unequal_heaps() {
    let (heap, accounts) = two_objects();
    let mut short = vec![0; 64];
    let (fresh, _) = open(&mut short, grants(&[500, 500]));
    let number = |a: &[u8], b: &[u8]| {
        let (refusal, which) = differences(a, b).expect_err("a refusal");
        (refusal.number(), which)
    };
    let (one, two) = (image_1(&heap, &accounts), image(&heap, &accounts));
    assert_eq!(number(&one, &two), (29, Which::Neither));
    assert_eq!(number(&two, &one), (29, Which::Neither));
    assert_eq!(number(&one, &image(&short, &fresh)), (29, Which::Neither));
    assert_eq!(number(&image_1(&short, &fresh), &one), (27, Which::Neither));
    assert_eq!(number(&one, &two[..512]), (22, Which::Second));
    assert_eq!(number(&two[..511], &one[..512]), (21, Which::First));
}
