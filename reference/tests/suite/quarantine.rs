//! Heaps with quarantine: what becomes of released blocks, the sweep, and what is consistent.

use crate::naive;
use crate::prng::Prng;
use crate::state::*;
use lokhazim_reference::*;

/// The serial of a quarantined block.
const WAITING: u32 = 4_294_967_295;

/// A heap of 128 bytes with objects of 16, 8 and 24 bytes of quota 0, of which quota 1 holds the
/// second, and a free block behind them; all objects are full of junk.
fn three_objects(kind: Kind) -> (State, [Handle; 3]) {
    let mut state = opened_with(128, &[500, 500], of_kind(kind));
    let objects = [16, 8, 24].map(|length| state.allocated(0, length));
    state.number(Call::Claim(1, objects[1]));
    for object in objects {
        let start = object.base as usize;
        state.heap[start..start + object.length as usize].fill(0x77);
    }
    (state, objects)
}

/// A state with these pieces and records, with fitting grants.
fn state_of(pieces: &[Piece], holds: &[Hold], kind: u8) -> State {
    let mut accounts = accounts_of(pieces, holds, grants(&[500, 600]), 9);
    accounts.kind = kind;
    State {
        heap: heap_of(pieces),
        accounts,
    }
}

/// Tells whether a state is consistent, after judging it both ways and by the sweep.
fn is_sound(state: &State) -> bool {
    let sound = naive::is_sound(&state.heap, &state.accounts);
    assert_eq!(check(&state.heap, &state.accounts).is_ok(), sound);
    let swept = state.clone().perform(Call::Sweep);
    assert_eq!(swept.is_ok(), sound);
    sound
}

#[test]
fn opening_keeps_the_kind() {
    for (kind, number) in [(Kind::Plain, 0), (Kind::Quarantine, 1)] {
        let state = opened_with(64, &[7], of_kind(kind));
        assert_eq!(state.accounts.kind, number);
        assert_eq!(state.heap, heap_of(&[(64, 0)]));
        assert_eq!(Kind::of(number), Some(kind));
        assert_eq!(kind.number(), number);
    }
    assert_eq!(opened(64, &[7]), opened_with(64, &[7], Options::default()));
    assert_eq!(Kind::of(2), None);
    let (accounts, answer) = open_with(&mut [1; 56], grants(&[7]), of_kind(Kind::Quarantine));
    assert_eq!(answer, Err(Refusal::HeapLength));
    assert_eq!(accounts, Accounts::default(), "all zero, the kind too");
}

#[test]
fn a_released_block_is_cleared_and_refunded_and_joins_nothing() {
    let (mut state, [_, _, last]) = three_objects(Kind::Quarantine);
    let mut expected = state.heap.clone();
    assert_eq!(state.number(Call::Release(0, last)), 32);
    put(&mut expected, 40, header(32, 16, WAITING));
    expected[48..72].fill(0);
    assert_eq!(state.heap, expected);
    assert_eq!(state.remainder(0), 500 - 24 - 16);
    assert_eq!(state.accounts.holds[2], Hold::UNUSED);
    assert!(is_sound(&state));
}

#[test]
fn a_block_that_somebody_holds_stays_live() {
    let (mut state, [_, middle, _]) = three_objects(Kind::Quarantine);
    let heap = state.heap.clone();
    assert_eq!(state.number(Call::Release(0, middle)), 16);
    assert_eq!(state.heap, heap);
    assert_eq!(state.number(Call::Release(1, middle)), 16);
    assert_eq!(state.heap[24..32], header(16, 24, WAITING));
    assert_eq!(state.number(Call::Sweep), 16);
}

#[test]
fn handles_of_quarantined_blocks_find_nothing() {
    let (mut state, [first, ..]) = three_objects(Kind::Quarantine);
    state.number(Call::Release(0, first));
    for serial in [first.serial, WAITING, 0] {
        for length in [first.length, 8] {
            let gone = handle(first.base, length, serial);
            state.refused(Call::Lend(gone), 5);
            state.refused(Call::Claim(1, gone), 5);
            state.refused(Call::Release(0, gone), 5);
            state.refused(Call::CanRelease(0, gone), 5);
            state.refused(Call::Reallocate(0, gone, 8), 5);
        }
    }
}

/// Makes a call and gives the number that it answers, the serial of a new object.
fn answer_of(state: &mut State, handles: &mut Vec<Handle>, call: Call) -> Result<u32, u8> {
    match state.perform(call) {
        Ok(Answer::Object(new)) => {
            handles.push(new);
            Ok(new.serial)
        }
        Ok(Answer::Number(number)) => Ok(number),
        other => Err(other.expect_err("a number").number()),
    }
}

#[test]
fn answers_and_accounts_are_those_of_a_plain_heap() {
    let mut prng = Prng::new(71);
    let mut states = KINDS.map(|kind| opened_with(32_768, &[900, 900], of_kind(kind)));
    let mut handles = KINDS.map(|_| vec![Handle::default()]);
    for _ in 0..400 {
        let (quota, length) = (prng.below(2), 1 + prng.below(40));
        let (chosen, which) = (prng.index(handles[0].len()), prng.pick(&[0, 0, 1, 2, 2, 3]));
        let answers = [0, 1].map(|kind| {
            let old = handles[kind][chosen];
            let calls = [
                Call::Allocate(quota, length),
                Call::Claim(quota, old),
                Call::Release(quota, old),
                Call::FreeAll(quota),
            ];
            answer_of(&mut states[kind], &mut handles[kind], calls[which])
        });
        assert_eq!(answers[0], answers[1]);
        let mut plain = states[0].accounts.clone();
        plain.kind = 1;
        assert!(plain == states[1].accounts);
    }
}

#[test]
fn a_sweep_joins_neighbours_and_answers_the_sizes() {
    let (mut state, [first, _, last]) = three_objects(Kind::Quarantine);
    state.number(Call::Release(0, first));
    state.number(Call::Release(0, last));
    let accounts = state.accounts.clone();
    let mut expected = state.heap.clone();
    assert_eq!(state.number(Call::Sweep), 24 + 32);
    put(&mut expected, 0, header(24, 0, 0));
    put(&mut expected, 40, header(88, 16, 0));
    put(&mut expected, 72, [0; 8]);
    assert_eq!(state.heap, expected);
    assert_eq!(state.accounts, accounts, "the accounts stay");
    let swept = state.clone();
    assert_eq!(state.number(Call::Sweep), 0);
    assert_eq!(state, swept);
}

#[test]
fn free_all_leaves_blocks_side_by_side_and_a_sweep_makes_one_of_them() {
    let (mut state, _) = three_objects(Kind::Quarantine);
    state.number(Call::FreeAll(1));
    assert_eq!(state.number(Call::FreeAll(0)), 72);
    let pieces = [(24, WAITING), (16, WAITING), (32, WAITING), (56, 0)];
    assert_eq!(state.heap, heap_of(&pieces));
    assert!(is_sound(&state));
    let mut listed = Vec::new();
    let mut walker = Walker::new(&state.heap);
    while let Ok(Some(block)) = walker.step(&state.accounts) {
        listed.push((block.size, block.serial));
    }
    assert_eq!(listed, pieces);
    assert_eq!(state.number(Call::Sweep), 72);
    assert_eq!(state.heap, heap_of(&[(128, 0)]));
}

#[test]
fn quarantined_bytes_are_no_space_until_the_sweep() {
    for kind in KINDS {
        let (mut state, [_, middle, _]) = three_objects(kind);
        state.number(Call::Release(0, middle));
        state.number(Call::Release(1, middle));
        state.allocated(1, 48);
        if kind == Kind::Quarantine {
            state.refused(Call::Allocate(1, 8), 11);
            assert_eq!(state.number(Call::Sweep), 16);
        }
        assert_eq!(state.allocated(1, 8), handle(32, 8, 5));
    }
}

#[test]
fn reallocate_leaves_the_old_block_in_quarantine() {
    let (mut state, [first, ..]) = three_objects(Kind::Quarantine);
    let answer = state.perform(Call::Reallocate(0, first, 16));
    assert_eq!(answer, Ok(Answer::Object(handle(80, 16, 4))));
    assert_eq!(state.heap[0..8], header(24, 0, WAITING));
    assert!(state.heap[8..24].iter().all(|byte| *byte == 0));
    assert!(state.heap[80..96].iter().all(|byte| *byte == 0x77));
}

#[test]
fn a_sweep_of_a_plain_heap_changes_nothing() {
    let (mut state, [first, ..]) = three_objects(Kind::Plain);
    state.number(Call::Release(0, first));
    let before = state.clone();
    assert_eq!(state.number(Call::Sweep), 0);
    assert_eq!(state, before);
}

#[test]
fn a_sweep_gives_1_and_2_only_and_needs_no_permission() {
    let (mut state, _) = three_objects(Kind::Quarantine);
    for quota in 0..QUOTAS as u32 {
        state.number(Call::ClearPermissions(quota, 7));
    }
    assert_eq!(state.number(Call::Sweep), 0);
    state.accounts.quotas[3].remainder = 1;
    state.refused(Call::Sweep, 2);
    state.heap.truncate(56);
    state.refused(Call::Sweep, 1);
}

#[test]
fn junk_in_quarantined_bodies_stays() {
    let pieces = [(24, WAITING), (32, WAITING), (40, 0), (32, 1)];
    let mut state = state_of(&pieces, &[hold(1, 0, 1)], 1);
    for body in [8..24, 32..56, 64..96] {
        state.heap[body].fill(0xEE);
    }
    let mut expected = state.heap.clone();
    assert_eq!(state.number(Call::Sweep), 56);
    put(&mut expected, 0, header(96, 0, 0));
    put(&mut expected, 24, [0; 8]);
    put(&mut expected, 56, [0; 8]);
    put(&mut expected, 96, header(32, 96, 1));
    assert_eq!(state.heap, expected);
}

#[test]
fn quarantined_blocks_are_sound_in_their_kind_only() {
    let holds = [hold(1, 0, 1)];
    for (pieces, sound) in [
        (vec![(24, 1), (40, 0)], [true, true]),
        (vec![(24, 1), (40, WAITING)], [false, true]),
        (vec![(24, 1), (16, WAITING), (24, 0)], [false, true]),
        (vec![(24, 1), (24, 0), (16, WAITING)], [false, true]),
        (vec![(24, 1), (24, WAITING), (16, WAITING)], [false, true]),
        (vec![(24, 1), (32, WAITING), (8, WAITING)], [false, false]),
        (vec![(8, WAITING), (24, 1), (32, 0)], [false, false]),
        (vec![(24, 1), (24, 0), (16, 0)], [false, false]),
        (
            vec![(8_200, WAITING), (24, 1), (8_200, WAITING), (88, 0)],
            [false, true],
        ),
    ] {
        for kind in 0..2 {
            let state = state_of(&pieces, &holds, kind);
            assert_eq!(is_sound(&state), sound[usize::from(kind)], "{pieces:?}");
        }
    }
}

#[test]
fn a_record_of_a_quarantined_block_is_not_sound() {
    let pieces = [(24, 1), (40, WAITING)];
    for kind in 0..2 {
        let state = state_of(&pieces, &[hold(1, 0, 1), hold(WAITING, 0, 1)], kind);
        assert!(!is_sound(&state));
    }
}

#[test]
fn other_numbers_of_a_kind_and_a_last_serial_above_are_not_sound() {
    for kind in 0..=255 {
        let state = state_of(&[(24, 1), (40, 0)], &[hold(1, 0, 1)], kind);
        assert_eq!(is_sound(&state), kind < 2);
    }
    for kind in 0..2 {
        let mut state = state_of(&[(24, 1), (40, 0)], &[hold(1, 0, 1)], kind);
        state.accounts.last_serial = 4_294_967_294;
        assert!(is_sound(&state));
        state.refused(Call::Allocate(0, 8), 10);
        state.accounts.last_serial = 4_294_967_295;
        assert!(!is_sound(&state));
        state.refused(Call::Allocate(0, 8), 2);
    }
}

/// Makes releases of all holds in an order of their own.
fn released(mut state: State, mut releases: Vec<Call>, prng: &mut Prng) -> State {
    while !releases.is_empty() {
        let call = releases.swap_remove(prng.index(releases.len()));
        assert!(state.perform(call).is_ok(), "{call:?}");
    }
    state
}

#[test]
fn releases_end_alike_in_every_order_in_both_kinds() {
    let mut prng = Prng::new(72);
    for kind in KINDS {
        for _ in 0..20 {
            let mut state = opened_with(512, &[900, 900], of_kind(kind));
            let mut releases = Vec::new();
            for _ in 0..12 {
                let object = state.allocated(0, 1 + prng.below(24));
                for quota in [0, 1, 1] {
                    if quota == 1 {
                        state.number(Call::Claim(quota, object));
                    }
                    if prng.percent(70) {
                        releases.push(Call::Release(quota, object));
                    }
                }
            }
            let first = released(state.clone(), releases.clone(), &mut prng);
            for _ in 0..8 {
                let other = released(state.clone(), releases.clone(), &mut prng);
                assert!(other == first);
            }
        }
    }
}
