//! Heaps and accounts that are not consistent: each rule of section 5 broken alone.

use crate::naive;
use crate::prng::Prng;
use crate::state::*;
use lokhazim_reference::*;

/// The blocks of the consistent heap that is damaged.
const PIECES: [Piece; 5] = [(24, 1), (32, 0), (24, 5), (16, 3), (32, 0)];

/// The records of the consistent accounts that are damaged.
fn records() -> Vec<Hold> {
    vec![
        hold(1, 0, 1),
        Hold::UNUSED,
        hold(5, 1, 255),
        hold(3, 0, 2),
        hold(3, 1, 1),
    ]
}

/// Makes a state of pieces and records, with grants that fit them.
fn state_of(pieces: &[Piece], holds: &[Hold]) -> State {
    State {
        heap: heap_of(pieces),
        accounts: accounts_of(pieces, holds, grants(&[500, 600, 700]), 9),
    }
}

/// Makes the consistent state.
fn sound() -> State {
    state_of(&PIECES, &records())
}

/// Makes the consistent state and changes it.
fn changed(change: impl FnOnce(&mut State)) -> State {
    let mut state = sound();
    change(&mut state);
    state
}

/// Makes a state whose records are the consistent ones and one more.
fn with_record(extra: Hold) -> State {
    state_of(&PIECES, &[records(), vec![extra]].concat())
}

/// Checks that every call but open gives 2 and that open is accepted.
fn is_refused_as_not_sound(name: &str, state: &State) {
    assert!(!naive::is_sound(&state.heap, &state.accounts), "{name}");
    assert_eq!(
        check(&state.heap, &state.accounts),
        Err(Refusal::NotSound),
        "{name}"
    );
    let mut calls = one_of_each(0, handle(8, 16, 1), 8);
    calls.extend(one_of_each(QUOTAS as u32, handle(0, 0, 0), 0));
    for call in calls {
        state.clone().refused(call, 2);
    }
    let mut walker = Walker::new(&state.heap);
    assert_eq!(walker.step(&state.accounts), Err(Refusal::NotSound));
    assert_eq!(walker.place, 0);
    let mut heap = state.heap.clone();
    assert_eq!(open(&mut heap, grants(&[1])).1, Ok(()));
}

#[test]
fn the_undamaged_state_is_sound() {
    let state = sound();
    assert!(naive::is_sound(&state.heap, &state.accounts));
    for call in one_of_each(0, handle(8, 16, 1), 8) {
        assert!(state.clone().perform(call).is_ok(), "{call:?}");
    }
}

#[test]
fn sentence_1_sizes_lead_to_the_end() {
    let cases = [
        (
            "a size of 0",
            changed(|s| put(&mut s.heap, 24, header(0, 24, 0))),
        ),
        (
            "a first size of 0",
            changed(|s| put(&mut s.heap, 0, header(0, 0, 1))),
        ),
        (
            "a last block too long",
            changed(|s| put(&mut s.heap, 96, header(40, 16, 0))),
        ),
        (
            "a last block too short",
            changed(|s| put(&mut s.heap, 96, header(24, 16, 0))),
        ),
        (
            "the largest size",
            changed(|s| put(&mut s.heap, 96, [255, 255, 2, 0, 0, 0, 0, 0])),
        ),
        (
            "a size into a body",
            changed(|s| put(&mut s.heap, 24, header(24, 24, 0))),
        ),
    ];
    for (name, state) in &cases {
        is_refused_as_not_sound(name, state);
    }
}

#[test]
fn sentence_1_back_sizes_are_true() {
    let cases = [
        (
            "a first back size",
            changed(|s| put(&mut s.heap, 0, header(24, 8, 1))),
        ),
        (
            "a back size of 0",
            changed(|s| put(&mut s.heap, 24, header(32, 0, 0))),
        ),
        (
            "a back size too small",
            changed(|s| put(&mut s.heap, 80, header(16, 16, 3))),
        ),
        (
            "a last back size too large",
            changed(|s| put(&mut s.heap, 96, header(32, 24, 0))),
        ),
        ("a back size in its high byte", changed(|s| s.heap[27] = 1)),
    ];
    for (name, state) in &cases {
        is_refused_as_not_sound(name, state);
    }
}

#[test]
fn sentence_1_live_blocks_have_an_object_and_free_blocks_do_not_touch() {
    let short = [(24, 1), (32, 0), (24, 5), (8, 3), (40, 0)];
    is_refused_as_not_sound("a live block of 8 bytes", &state_of(&short, &records()));
    let split = [(24, 1), (16, 0), (16, 0), (24, 5), (16, 3), (32, 0)];
    is_refused_as_not_sound("two free blocks", &state_of(&split, &records()));
    let split_at_end = [(24, 1), (32, 0), (24, 5), (16, 3), (24, 0), (8, 0)];
    is_refused_as_not_sound("two free blocks", &state_of(&split_at_end, &records()));
}

#[test]
fn sentence_2_live_serials_differ_and_are_at_most_the_last() {
    let twice = [(24, 1), (32, 0), (24, 5), (16, 5), (32, 0)];
    let holds = [hold(1, 0, 1), hold(5, 1, 1)];
    is_refused_as_not_sound("a serial twice", &state_of(&twice, &holds));
    let above = changed(|s| s.accounts.last_serial = 4);
    is_refused_as_not_sound("a serial above the last", &above);
    let equal = changed(|s| s.accounts.last_serial = 5);
    assert_eq!(check(&equal.heap, &equal.accounts), Ok(()));
}

#[test]
fn sentence_3_used_records_have_live_serial_quota_and_count() {
    let cases = [
        ("a serial of no object", hold(2, 0, 1)),
        ("a serial not yet given", hold(u32::MAX, 0, 1)),
        ("a serial of 0 with a count", hold(0, 0, 1)),
        ("a serial of 0 with a quota", hold(0, 1, 0)),
        ("a serial of 0 with both", hold(0, 1, 1)),
        ("a quota out of range", hold(1, QUOTAS as u8, 1)),
        ("the largest quota", hold(1, 255, 1)),
        ("a count of 0", hold(1, 2, 0)),
    ];
    for (name, record) in cases {
        is_refused_as_not_sound(name, &with_record(record));
    }
    let last = changed(|s| s.accounts.holds[HOLDS - 1].count = 1);
    is_refused_as_not_sound("the last record", &last);
}

#[test]
fn sentence_4_no_two_used_records_agree_in_serial_and_quota() {
    is_refused_as_not_sound("the same count", &with_record(hold(1, 0, 1)));
    is_refused_as_not_sound("another count", &with_record(hold(5, 1, 7)));
}

#[test]
fn sentence_5_every_live_object_has_a_record() {
    let holds = [hold(1, 0, 1), hold(3, 0, 1)];
    is_refused_as_not_sound("no record", &state_of(&PIECES, &holds));
    is_refused_as_not_sound("no record at all", &state_of(&PIECES, &[]));
}

#[test]
fn sentence_6_grants_are_remainders_and_charges_in_whole_numbers() {
    for quota in 0..QUOTAS {
        let more = changed(|s| s.accounts.quotas[quota].grant += 1);
        is_refused_as_not_sound("a grant too large", &more);
        let less = changed(|s| s.accounts.quotas[quota].remainder += 1);
        is_refused_as_not_sound("a remainder too large", &less);
    }
    let wrapped = changed(|s| {
        let charges = s.accounts.quotas[0].grant - s.accounts.quotas[0].remainder;
        s.accounts.quotas[0].grant = 0;
        s.accounts.quotas[0].remainder = 0_u32.wrapping_sub(charges);
    });
    is_refused_as_not_sound("a sum that wraps", &wrapped);
    let count = changed(|s| s.accounts.quotas[0].remainder -= 16);
    is_refused_as_not_sound("a charge for each count", &count);
}

#[test]
fn permissions_are_three_bits() {
    for quota in 0..QUOTAS {
        for bits in [8, 15, 128, 255] {
            let more = changed(|s| s.accounts.quotas[quota].permissions = bits);
            is_refused_as_not_sound("a fourth permission", &more);
        }
        for bits in 0..8 {
            let fewer = changed(|s| s.accounts.quotas[quota].permissions = bits);
            assert_eq!(check(&fewer.heap, &fewer.accounts), Ok(()));
        }
    }
}

/// Makes a heap of this length with one object, which quota 0 holds.
fn with_object(heap_length: u32, base: u32, length: u32) -> State {
    let (front, behind) = (base - 8, heap_length - base - length);
    let pieces = [(front, 0), (length + 8, 1), (behind, 0)];
    let pieces: Vec<Piece> = pieces.into_iter().filter(|piece| piece.0 > 0).collect();
    state_of(&pieces, &[hold(1, 0, 1)])
}

/// Bases and lengths of objects that fit their units.
const FITTING: [(u32, u32); 14] = [
    (8, 8),
    (24, 8_176),
    (8, 8_184),
    (16, 8_192),
    (8_208, 8_192),
    (16, 8_208),
    (48, 16_352),
    (16, 16_368),
    (32, 16_384),
    (64, 16_384),
    (16_352, 16_384),
    (32, 16_416),
    (64, 32_704),
    (32, 32_736),
];

/// Bases and lengths of objects of which one does not fit the unit.
const UNFITTING: [(u32, u32); 16] = [
    (8, 8_192),
    (24, 8_192),
    (8_200, 8_192),
    (16, 8_200),
    (8, 8_200),
    (8, 8_208),
    (16, 16_376),
    (8, 16_368),
    (8, 16_384),
    (16, 16_384),
    (48, 16_384),
    (32, 16_400),
    (32, 16_392),
    (16, 32_736),
    (16, 32_752),
    (8, 32_760),
];

#[test]
fn rule_5_10_bases_and_lengths_fit_their_units() {
    for (base, length) in FITTING {
        let state = with_object(32_768, base, length);
        assert!(naive::is_sound(&state.heap, &state.accounts));
        assert_eq!(
            check(&state.heap, &state.accounts),
            Ok(()),
            "{base} {length}"
        );
    }
    for (base, length) in UNFITTING {
        let name = format!("{length} bytes at {base}");
        is_refused_as_not_sound(&name, &with_object(32_768, base, length));
    }
}

#[test]
fn rule_5_10_asks_nothing_of_free_blocks_and_looks_at_every_object() {
    let holds = [hold(1, 0, 1), hold(2, 0, 1), hold(3, 0, 1)];
    let long_free = [(16, 1), (8_208, 0), (16, 2), (16_400, 0), (16, 3)];
    let all_fit = [(16, 1), (8, 0), (8_200, 2), (8, 0), (8_200, 3)];
    for pieces in [long_free, all_fit] {
        let state = state_of(&pieces, &holds);
        assert_eq!(check(&state.heap, &state.accounts), Ok(()));
    }
    let last_off = [(16, 1), (8, 0), (8_200, 2), (16, 0), (8_200, 3)];
    is_refused_as_not_sound("the last object", &state_of(&last_off, &holds));
}

#[test]
fn record_places_need_no_order_and_last_serial_may_be_higher() {
    let mut state = sound();
    state.accounts.holds.reverse();
    state.accounts.last_serial = u32::MAX - 1;
    assert_eq!(check(&state.heap, &state.accounts), Ok(()));
}

/// Judges a damaged state both ways and checks what each call does with it.
fn judge(state: &State) -> bool {
    let sound = naive::is_sound(&state.heap, &state.accounts);
    assert_eq!(check(&state.heap, &state.accounts).is_ok(), sound);
    for call in one_of_each(0, handle(8, 16, 1), 8) {
        let mut after = state.clone();
        if !sound {
            after.refused(call, 2);
        } else if after.perform(call).is_err() {
            assert!(after == *state, "a refused {call:?} changed something");
        } else {
            assert!(naive::is_sound(&after.heap, &after.accounts));
        }
    }
    sound
}

#[test]
fn every_single_bit_of_every_header_is_judged_alike() {
    let mut sounds = 0;
    for offset in [0, 24, 56, 80, 96] {
        for bit in 0..64 {
            let state = changed(|s| s.heap[offset + bit / 8] ^= 1 << (bit % 8));
            sounds += usize::from(judge(&state));
        }
    }
    assert_eq!(sounds, 0, "every bit of a header matters");
}

#[test]
fn random_damage_to_heap_bytes_is_judged_alike() {
    let mut prng = Prng::new(11);
    for _ in 0..1_500 {
        let state = changed(|s| {
            for _ in 0..=prng.below(3) {
                let at = prng.index(s.heap.len());
                s.heap[at] = prng.pick(&[0, 1, 2, 3, 4, 5, 16, 255]);
            }
        });
        judge(&state);
    }
}

#[test]
fn random_damage_to_accounts_is_judged_alike() {
    let mut prng = Prng::new(12);
    for _ in 0..1_500 {
        let state = changed(|s| {
            let quota = prng.index(QUOTAS);
            let record = prng.index(7);
            match prng.below(9) {
                0 => s.accounts.quotas[quota].grant = prng.odd_word(),
                1 => s.accounts.quotas[quota].remainder = prng.odd_word(),
                2 => s.accounts.last_serial = prng.below(12),
                3 => s.accounts.holds[record].serial = prng.below(7),
                4 => s.accounts.holds[record].quota = prng.below(4) as u8,
                7 => s.accounts.kind = prng.pick(&[1, 2, 255]),
                8 => s.accounts.edition = prng.pick(&[1, 2, 255]),
                5 => s.accounts.quotas[quota].permissions = prng.pick(&[0, 3, 7, 8, 255]),
                _ => s.accounts.holds[record].count = prng.pick(&[0, 1, 2, 255]),
            }
        });
        judge(&state);
    }
}
