//! Handles of a part of an object: which calls take them, and what they act on.

use crate::state::*;
use lokhazim_reference::*;

/// A heap of 128 bytes with objects of 16 and 24 bytes at 8 and 32, both of quota 0.
fn two_objects() -> State {
    let mut state = opened(128, &[500, 500]);
    assert_eq!(state.allocated(0, 16), handle(8, 16, 1));
    assert_eq!(state.allocated(0, 24), handle(32, 24, 2));
    state
}

/// Tells whether a range has a byte, and all of them in the object of 16 bytes at 8.
fn lies_inside(base: u32, length: u32) -> bool {
    let bytes: Vec<u32> = (base..base + length).collect();
    !bytes.is_empty() && bytes.iter().all(|byte| (8..24).contains(byte))
}

#[test]
fn every_range_around_an_object() {
    let mut state = two_objects();
    let mut inside = 0;
    for base in 0..70 {
        for length in 0..40 {
            let part = handle(base, length, 1);
            if lies_inside(base, length) {
                let range = base as usize..(base + length) as usize;
                assert_eq!(state.perform(Call::Lend(part)), Ok(Answer::Part(range)));
                assert_eq!(state.perform(Call::CanRelease(0, part)), Ok(Answer::Yes));
                state.refused(Call::CanRelease(1, part), 6);
                inside += 1;
            } else {
                state.refused(Call::Lend(part), 5);
                state.refused(Call::CanRelease(0, part), 5);
                state.refused(Call::Claim(1, part), 5);
                state.refused(Call::Release(0, part), 5);
            }
        }
    }
    assert_eq!(inside, 16 * 17 / 2);
}

#[test]
fn the_serial_decides_which_object_is_meant() {
    let mut state = two_objects();
    for (part, number) in [
        (handle(40, 8, 1), 5),
        (handle(8, 8, 2), 5),
        (handle(8, 8, 0), 5),
        (handle(8, 8, 3), 5),
        (handle(64, 8, 0), 5),
        (handle(8, 40, 1), 5),
        (handle(24, 8, 1), 5),
        (handle(23, 2, 1), 5),
        (handle(7, 2, 1), 5),
    ] {
        state.refused(Call::Lend(part), number);
        state.refused(Call::Claim(0, part), number);
        state.refused(Call::Release(0, part), number);
    }
}

#[test]
fn sums_that_do_not_fit_32_bits_lie_outside() {
    let mut state = two_objects();
    for part in [
        handle(8, u32::MAX, 1),
        handle(16, u32::MAX - 7, 1),
        handle(u32::MAX, 17, 1),
        handle(u32::MAX - 7, 16, 1),
        handle(u32::MAX, 1, 1),
        handle(u32::MAX, u32::MAX, 1),
        handle(16, 0, 1),
        handle(24, 0, 1),
    ] {
        state.refused(Call::Lend(part), 5);
        state.refused(Call::CanRelease(0, part), 5);
        state.refused(Call::Release(0, part), 5);
        state.refused(Call::Claim(0, part), 5);
    }
}

#[test]
fn claim_and_release_act_on_the_whole_object() {
    let mut state = two_objects();
    let mut by_whole = state.clone();
    let (part, whole) = (handle(20, 1, 1), handle(8, 16, 1));
    assert_eq!(state.number(Call::Claim(1, part)), 16);
    assert_eq!(by_whole.number(Call::Claim(1, whole)), 16);
    assert_eq!(state, by_whole);
    assert_eq!(state.remainder(1), 500 - 24);
    assert_eq!(state.number(Call::Claim(1, handle(8, 15, 1))), 16);
    assert_eq!(state.number(Call::Release(1, part)), 0);
    assert_eq!(state.number(Call::Release(1, handle(9, 15, 1))), 24);
    state.refused(Call::Release(1, part), 6);
    state.heap[8..24].fill(0xAB);
    assert_eq!(state.number(Call::Release(0, part)), 24);
    assert_eq!(state.heap[0..8], header(24, 0, 0));
    assert!(state.heap[8..24].iter().all(|byte| *byte == 0));
    state.refused(Call::Lend(part), 5);
}

#[test]
fn a_narrowed_claim_pays_for_the_whole_object() {
    let mut state = opened(128, &[500, 23, 24]);
    let object = state.allocated(0, 16);
    let part = handle(object.base + 15, 1, object.serial);
    state.refused(Call::Claim(1, part), 8);
    assert_eq!(state.number(Call::Claim(2, part)), 16);
    assert_eq!(state.remainder(2), 0);
}

#[test]
fn lend_gives_the_narrowed_range_only() {
    let mut state = two_objects();
    let part = handle(35, 4, 2);
    let lent = lend_mut(&mut state.heap, &state.accounts, part).expect("the object lives");
    assert_eq!(lent.len(), 4);
    lent.fill(1);
    let mut expected = [0; 24];
    expected[3..7].fill(1);
    assert_eq!(state.heap[32..56], expected);
}

#[test]
fn reallocate_takes_the_whole_handle_only() {
    let mut state = two_objects();
    for part in [handle(8, 15, 1), handle(9, 15, 1), handle(8, 8, 1)] {
        state.refused(Call::Reallocate(0, part, 8), 5);
        state.refused(Call::Reallocate(1, part, 8), 5);
        state.refused(Call::Reallocate(0, part, 0), 4);
    }
    state.refused(Call::Reallocate(1, handle(8, 16, 1), 8), 6);
    let answer = state.perform(Call::Reallocate(0, handle(8, 16, 1), 8));
    assert_eq!(answer, Ok(Answer::Object(handle(64, 8, 3))));
}

#[test]
fn replay_takes_narrowed_handles_in_claim_and_free_but_not_in_realloc() {
    let open = format!("open 128 100 1000{}\n", " 0".repeat(30));
    let lines = "alloc 0 10\nclaim 1 23 1 1\nclaim 1 24 1 1\nclaim 1 8 0 1\n\
                 realloc 0 8 8 1 8\nfree 0 10 3 1\nfree 1 8 17 1\nfree 1 8 1 1\n";
    let answers = "ok\nok 8 16 1\nok 16\nno 5\nno 5\nno 5\nok 24\nno 5\nok 24\n0 128 0\n";
    let output = replay((open + lines).as_bytes());
    assert_eq!(String::from_utf8(output), Ok(answers.to_string()));
}
