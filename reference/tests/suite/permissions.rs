//! Permissions of a quota: which call needs which, how they are cleared, and images of them.

use crate::state::*;
use lokhazim_reference::*;

/// A heap of 256 bytes with an object of 16 that quotas 0 and 1 hold.
fn held_twice() -> (State, Handle) {
    let mut state = opened(256, &[500, 500]);
    let object = state.allocated(0, 16);
    assert_eq!(state.number(Call::Claim(1, object)), 16);
    (state, object)
}

/// The same with some permissions of quota 1 cleared.
fn cleared(bits: u32) -> (State, Handle) {
    let (mut state, object) = held_twice();
    state.number(Call::ClearPermissions(1, bits));
    (state, object)
}

/// Checks whether quota 1 is refused by 12, and if not, that the call is accepted.
fn needs(state: &State, call: Call, permission_is_missing: bool) {
    let mut state = state.clone();
    if permission_is_missing {
        state.refused(call, 12);
    } else {
        assert!(state.perform(call).is_ok(), "{call:?}");
    }
}

#[test]
fn all_are_set_at_opening() {
    let state = opened(64, &[1]);
    for quota in state.accounts.quotas {
        assert_eq!(quota.permissions, 7);
    }
    assert_eq!(ALL_PERMISSIONS, 7);
}

#[test]
fn a_refused_opening_leaves_none() {
    let (accounts, answer) = open(&mut [0; 56], grants(&[9]));
    assert_eq!(answer, Err(Refusal::HeapLength));
    assert_eq!(accounts, Accounts::default());
    let mut state = State {
        heap: heap_of(&[(64, 0)]),
        accounts,
    };
    state.refused(Call::Allocate(0, 8), 12);
    state.refused(Call::FreeAll(7), 12);
    assert_eq!(state.number(Call::ClearPermissions(0, 7)), 0);
}

#[test]
fn each_call_needs_its_own_permission() {
    for bits in 0..8 {
        let (state, object) = cleared(bits);
        let missing = |bit: u32| bits >> bit & 1 == 1;
        needs(&state, Call::Allocate(1, 8), missing(0));
        needs(&state, Call::Array(1, 2, 4), missing(0));
        needs(&state, Call::Reallocate(1, object, 8), missing(0));
        needs(&state, Call::Claim(1, object), missing(1));
        needs(&state, Call::FreeAll(1), missing(2));
        for call in [
            Call::Release(1, object),
            Call::CanRelease(1, object),
            Call::Lend(object),
            Call::Remaining(1),
            Call::ClearPermissions(1, 7),
            Call::Step(0),
            Call::Allocate(0, 8),
            Call::Claim(0, object),
            Call::FreeAll(0),
        ] {
            needs(&state, call, false);
        }
    }
}

#[test]
fn the_bits_left_are_answered_and_never_come_back() {
    let (mut state, _) = held_twice();
    let before = state.clone();
    for (bits, left) in [(0, 7), (8, 7), (0xFFFF_FFF8, 7), (2, 5), (2, 5), (6, 1)] {
        assert_eq!(state.number(Call::ClearPermissions(1, bits)), left);
        assert_eq!(u32::from(state.accounts.quotas[1].permissions), left);
    }
    assert_eq!(state.number(Call::ClearPermissions(1, 0)), 1);
    assert_eq!(state.number(Call::ClearPermissions(1, u32::MAX)), 0);
    let mut expected = before;
    expected.accounts.quotas[1].permissions = 0;
    assert_eq!(state, expected, "nothing else changes");
}

#[test]
fn refusal_12_comes_right_after_3() {
    let (mut state, _) = cleared(7);
    let nothing = handle(0, 0, 0);
    state.refused(Call::Allocate(1, 0), 12);
    state.refused(Call::Array(1, u32::MAX, u32::MAX), 12);
    state.refused(Call::Reallocate(1, nothing, 0), 12);
    state.refused(Call::Claim(1, nothing), 12);
    state.refused(Call::Release(1, nothing), 5);
    state.refused(Call::CanRelease(1, nothing), 5);
    state.refused(Call::ClearPermissions(QUOTAS as u32, 7), 3);
    state.refused(Call::ClearPermissions(u32::MAX, 0), 3);
}

#[test]
fn a_missing_permission_counts_where_the_call_would_do_nothing() {
    let mut state = opened(64, &[]);
    state.number(Call::ClearPermissions(3, 4));
    state.refused(Call::FreeAll(3), 12);
    let (mut state, object) = cleared(2);
    state.refused(Call::Claim(1, object), 12);
}

#[test]
fn reallocate_asks_for_allocate_alone() {
    let (mut state, object) = cleared(6);
    let answer = state.perform(Call::Reallocate(1, object, 8));
    assert_eq!(answer, Ok(Answer::Object(handle(32, 8, 2))));
}

#[test]
fn form_1_carries_no_cleared_permission() {
    for quota in 0..QUOTAS as u32 {
        let (mut state, _) = held_twice();
        state.number(Call::ClearPermissions(quota, 4));
        let State { heap, accounts } = &state;
        let number = |image: &mut [u8], heap: &[u8]| {
            write_form_1(image, heap, accounts).map_err(ImageRefusal::number)
        };
        let mut image = [7; 2_048];
        assert_eq!(number(&mut image, heap), Err(28));
        assert_eq!(number(&mut [], heap), Err(28), "28 comes before 25");
        assert_eq!(number(&mut image, &heap[..56]), Err(1));
        assert_eq!(number(&mut image, &[0; 256]), Err(2));
        assert_eq!(image, [7; 2_048]);
    }
}

#[test]
fn the_reader_of_form_1_sets_all() {
    let (state, _) = held_twice();
    let mut image = vec![0; image_length_form_1(256)];
    assert!(write_form_1(&mut image, &state.heap, &state.accounts).is_ok());
    let mut heap = vec![0; 256];
    let accounts = read_image(&image, &mut heap).expect("the image is good");
    assert_eq!(State { heap, accounts }, state);
    assert!(state.accounts.quotas.iter().all(|q| q.permissions == 7));
}
