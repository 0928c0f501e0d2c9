//! The marked run M, step by step, with its bytes and remainders.

use crate::state::*;
use lokhazim_reference::Handle;

/// Checks the remainders of the first two quotas.
fn remainders(state: &State, first: u32, second: u32) {
    assert_eq!(state.remainder(0), first);
    assert_eq!(state.remainder(1), second);
}

/// The object of the first step.
const FIRST: Handle = Handle {
    base: 8,
    length: 16,
    serial: 1,
};

/// The object of the fifth step.
const SECOND: Handle = Handle {
    base: 32,
    length: 96,
    serial: 2,
};

#[test]
fn opening_leaves_one_free_block_and_zero_bytes() {
    let state = opened(128, &[100, 1_000]);
    let mut bytes = vec![0; 128];
    bytes[0] = 0x10;
    assert_eq!(state.heap, bytes);
    remainders(&state, 100, 1_000);
    assert!(state.accounts.holds.iter().all(|hold| !hold.is_used()));
}

#[test]
fn first_step_writes_the_two_headers() {
    let mut state = opened(128, &[100, 1_000]);
    assert_eq!(state.allocated(0, 10), FIRST);
    assert_eq!(state.heap[0..8], [0x03, 0, 0, 0, 0x01, 0, 0, 0]);
    assert_eq!(state.heap[24..32], [0x0D, 0, 0x03, 0, 0, 0, 0, 0]);
    assert!(state.heap[8..24].iter().all(|byte| *byte == 0));
    assert!(state.heap[32..].iter().all(|byte| *byte == 0));
}

#[test]
fn run_m_gives_every_answer_and_remainder() {
    let mut state = opened(128, &[100, 1_000]);
    assert_eq!(state.allocated(0, 10), FIRST);
    remainders(&state, 76, 1_000);
    state.refused(Call::Allocate(0, 68), 8);
    remainders(&state, 76, 1_000);
    assert_eq!(state.number(Call::Claim(1, FIRST)), 16);
    remainders(&state, 76, 976);
    assert_eq!(state.number(Call::Release(0, FIRST)), 24);
    remainders(&state, 100, 976);
    assert_eq!(state.perform(Call::Lend(FIRST)), Ok(Answer::Part(8..24)));
    assert_eq!(state.allocated(1, 96), SECOND);
    remainders(&state, 100, 872);
    state.refused(Call::Allocate(1, 1), 11);
    remainders(&state, 100, 872);
    assert_eq!(state.number(Call::Release(1, FIRST)), 24);
    remainders(&state, 100, 896);
    state.refused(Call::Allocate(0, 24), 11);
    remainders(&state, 100, 896);
    assert_eq!(state.allocated(0, 16), handle(8, 16, 3));
    remainders(&state, 76, 896);
    state.refused(Call::Release(0, FIRST), 5);
    state.refused(Call::Release(0, SECOND), 6);
    remainders(&state, 76, 896);
    assert_eq!(state.number(Call::FreeAll(1)), 104);
    remainders(&state, 76, 1_000);
    let mut bytes = vec![0; 128];
    bytes[0..8].copy_from_slice(&[3, 0, 0, 0, 3, 0, 0, 0]);
    bytes[24..32].copy_from_slice(&[0x0D, 0, 3, 0, 0, 0, 0, 0]);
    assert_eq!(state.heap, bytes);
}
