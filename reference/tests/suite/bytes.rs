//! Which bytes and records the calls change, and which they leave.

use crate::state::*;
use lokhazim_reference::*;

/// Fills the bytes from start to end with a value that no rule names.
fn junk(state: &mut State, start: usize, end: usize) {
    state.heap[start..end].fill(0xEE);
}

/// Makes a heap with live, free, live, free blocks whose free bodies hold junk.
fn with_junk() -> State {
    let pieces = [(24, 1), (32, 0), (24, 2), (48, 0)];
    let holds = [hold(1, 0, 1), hold(2, 1, 1)];
    let mut state = State {
        heap: heap_of(&pieces),
        accounts: accounts_of(&pieces, &holds, grants(&[500, 500, 500]), 2),
    };
    junk(&mut state, 32, 56);
    junk(&mut state, 88, 128);
    state
}

#[test]
fn allocate_clears_the_object_only_and_writes_headers() {
    let mut state = with_junk();
    let mut expected = state.heap.clone();
    assert_eq!(state.allocated(0, 8), handle(32, 8, 3));
    put(&mut expected, 24, header(16, 24, 3));
    expected[32..40].fill(0);
    put(&mut expected, 40, header(16, 16, 0));
    put(&mut expected, 56, header(24, 16, 2));
    assert_eq!(state.heap, expected);
}

#[test]
fn release_clears_the_object_and_vanished_headers_and_leaves_junk() {
    let mut state = with_junk();
    state.heap[64..80].fill(0x77);
    let mut expected = state.heap.clone();
    assert_eq!(state.number(Call::Release(1, handle(64, 16, 2))), 24);
    put(&mut expected, 24, header(104, 24, 0));
    expected[56..88].fill(0);
    assert_eq!(state.heap, expected);
    assert_eq!(state.accounts.holds[1], Hold::UNUSED);
}

#[test]
fn release_joins_only_free_neighbours() {
    let mut state = with_junk();
    let object = state.allocated(2, 40);
    assert_eq!(object, handle(88, 40, 3));
    let mut expected = state.heap.clone();
    assert_eq!(state.number(Call::Release(1, handle(64, 16, 2))), 24);
    put(&mut expected, 24, header(56, 24, 0));
    expected[56..80].fill(0);
    put(&mut expected, 80, header(48, 56, 3));
    assert_eq!(state.heap, expected);
}

#[test]
fn free_all_clears_and_joins_all_its_objects_at_once() {
    let mut state = with_junk();
    assert_eq!(state.number(Call::Claim(1, handle(8, 16, 1))), 16);
    assert_eq!(state.number(Call::Release(0, handle(8, 16, 1))), 24);
    let mut expected = state.heap.clone();
    assert_eq!(state.number(Call::FreeAll(1)), 48);
    expected[0..32].fill(0);
    expected[56..88].fill(0);
    put(&mut expected, 0, header(128, 0, 0));
    assert_eq!(state.heap, expected);
    assert_eq!(state.remainder(1), 524);
}

#[test]
fn free_all_without_a_record_changes_nothing() {
    let mut state = with_junk();
    let before = state.clone();
    assert_eq!(state.number(Call::FreeAll(2)), 0);
    assert_eq!(state, before);
}

#[test]
fn free_all_leaves_objects_that_others_hold() {
    let mut state = with_junk();
    state.number(Call::Claim(1, handle(8, 16, 1)));
    state.number(Call::Claim(1, handle(8, 16, 1)));
    let heap = state.heap.clone();
    assert_eq!(state.number(Call::FreeAll(0)), 24);
    assert_eq!(state.heap, heap);
    assert_eq!(state.accounts.holds[0], Hold::UNUSED);
    assert_eq!(state.accounts.holds[2], hold(1, 1, 2));
}

#[test]
fn a_record_takes_the_lowest_unused_place() {
    let mut state = opened(256, &[1_000, 1_000]);
    let first = state.allocated(0, 8);
    let second = state.allocated(0, 8);
    state.number(Call::Release(0, first));
    state.number(Call::Claim(1, second));
    assert_eq!(state.accounts.holds[0], hold(2, 1, 1));
    assert_eq!(state.accounts.holds[1], hold(2, 0, 1));
    state.allocated(1, 8);
    assert_eq!(state.accounts.holds[2], hold(3, 1, 1));
}

#[test]
fn reallocate_copies_the_shorter_length_and_clears_the_rest() {
    let mut state = opened(256, &[1_000]);
    let old = state.allocated(0, 16);
    state.heap[8..24].fill(0x33);
    junk(&mut state, 32, 256);
    let answer = state.perform(Call::Reallocate(0, old, 25));
    assert_eq!(answer, Ok(Answer::Object(handle(32, 32, 2))));
    assert!(state.heap[8..24].iter().all(|byte| *byte == 0));
    assert!(state.heap[32..48].iter().all(|byte| *byte == 0x33));
    assert!(state.heap[48..64].iter().all(|byte| *byte == 0));
    let answer = state.perform(Call::Reallocate(0, handle(32, 32, 2), 1));
    assert_eq!(answer, Ok(Answer::Object(handle(8, 8, 3))));
    assert!(state.heap[8..16].iter().all(|byte| *byte == 0x33));
    assert_eq!(state.heap[16..24], header(240, 16, 0));
    assert!(state.heap[24..64].iter().all(|byte| *byte == 0));
    assert!(state.heap[72..].iter().all(|byte| *byte == 0xEE));
}

#[test]
fn reallocate_releases_once_only() {
    let mut state = opened(256, &[1_000, 1_000]);
    let old = state.allocated(0, 8);
    state.number(Call::Claim(0, old));
    state.number(Call::Claim(1, old));
    let answer = state.perform(Call::Reallocate(0, old, 8));
    assert_eq!(answer, Ok(Answer::Object(handle(24, 8, 2))));
    assert_eq!(state.remainder(0), 1_000 - 32);
    let answer = state.perform(Call::Reallocate(0, old, 8));
    assert_eq!(answer, Ok(Answer::Object(handle(40, 8, 3))));
    assert_eq!(state.remainder(0), 1_000 - 32);
    state.refused(Call::Reallocate(0, old, 8), 6);
    assert_eq!(state.perform(Call::Lend(old)), Ok(Answer::Part(8..16)));
}

#[test]
fn lent_bytes_are_the_object_and_can_be_written() {
    let mut state = opened(128, &[1_000]);
    let object = state.allocated(0, 16);
    let part = lend_mut(&mut state.heap, &state.accounts, object).expect("the object lives");
    assert_eq!(part.len(), 16);
    part.fill(9);
    let mut expected = vec![0; 128];
    put(&mut expected, 0, header(24, 0, 1));
    expected[8..24].fill(9);
    put(&mut expected, 24, header(104, 24, 0));
    assert_eq!(state.heap, expected);
    let refused = lend_mut(&mut state.heap, &state.accounts, handle(8, 16, 2));
    assert_eq!(refused, Err(Refusal::NoObject));
}

#[test]
fn walker_gives_the_blocks_in_order_and_stays_at_the_end() {
    let state = with_junk();
    let mut walker = Walker::new(&state.heap);
    let mut seen = Vec::new();
    while let Ok(Some(block)) = walker.step(&state.accounts) {
        seen.push((block.offset, block.size, block.serial));
    }
    assert_eq!(seen, [(0, 24, 1), (24, 32, 0), (56, 24, 2), (80, 48, 0)]);
    assert_eq!(walker.place, 128);
    assert_eq!(walker.step(&state.accounts), Ok(None));
    assert_eq!(walker.place, 128);
}

#[test]
fn places_that_start_no_block_give_no_block() {
    let mut state = with_junk();
    put(&mut state.heap, 8, header(16, 8, 2));
    for place in [1, 8, 16, 23, 25, 120, 127, 128, 136, 1 << 20, usize::MAX] {
        assert_eq!(block_at(&state.heap, &state.accounts, place), Ok(None));
    }
}

#[test]
fn header_like_bytes_inside_an_object_mean_nothing() {
    let mut state = opened(128, &[1_000]);
    let object = state.allocated(0, 48);
    put(&mut state.heap, 16, header(24, 16, 2));
    put(&mut state.heap, 40, header(16, 24, 7));
    state.refused(Call::Lend(handle(24, 16, 2)), 5);
    state.refused(Call::Release(0, handle(48, 8, 7)), 5);
    assert_eq!(state.number(Call::Release(0, object)), 56);
}
