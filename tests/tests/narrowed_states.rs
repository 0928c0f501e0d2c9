//! Handles that were narrowed (rules 4.6 to 4.10) in states that no replay reaches, and of long
//! objects.

use lokhazim_reference::{Handle, QUOTAS};
use lokhazim_tests::cases::narrowing::{beside_handle, narrowed_handle};
use lokhazim_tests::cases::states::{permitted, sound, Plan};
use lokhazim_tests::judge::cut::live_handles;
use lokhazim_tests::judge::ledger::Ledger;
use lokhazim_tests::run::calls::Pair;
use lokhazim_tests::run::histories::once;
use lokhazim_tests::seed::Seed;
use lokhazim_tests::state::{Answer, Call, State};

/// The seed of the states.
const SEED: u64 = 20_260_108;

/// The part of an object with serial 1 that has these bytes.
fn part_of_1(base: u32, length: u32) -> Handle {
    Handle {
        base,
        length,
        serial: 1,
    }
}

/// Makes a call on a copy of a state, on both sides and by the ledger's rules.
fn call(pair: &mut Pair, state: &State, call: Call) -> Answer {
    let answer = once(pair, state.clone(), call);
    answer.unwrap_or_else(|failure| panic!("{failure}"))
}

/// Every call with a handle.
fn every_call(quota: u32, part: Handle) -> [Call; 6] {
    [
        Call::Lend(part),
        Call::Write(part, 0, 7),
        Call::CanRelease(quota, part),
        Call::Claim(quota, part),
        Call::Release(quota, part),
        Call::Reallocate(quota, part, 8),
    ]
}

/// Checks that every call with the handle gives 5.
fn names_nothing(pair: &mut Pair, state: &State, part: Handle) {
    for made in every_call(0, part) {
        assert_eq!(call(pair, state, made), Answer::refused(5), "{made}");
    }
}

#[test]
fn long_objects_from_their_first_byte_to_their_last() {
    let mut pair = Pair::new();
    let mut seed = Seed::of_case(SEED, 0);
    for (heap, base, length) in [
        (16_384, 16, 8_192),
        (32_768, 32, 16_384),
        (32_768, 32, 32_736),
        (32_768, 32_760, 8),
        (32_760, 8, 8_184),
    ] {
        let state = Plan::of_object(heap, base, length).render(&mut seed);
        let (end, charge) = (base + length, u64::from(length) + 8);
        let inside = [
            (base, 1),
            (base, length - 1),
            (base + 1, length - 1),
            (end - 1, 1),
        ];
        for part in inside.map(|(base, length)| part_of_1(base, length)) {
            let range = [part.base.into(), (part.base + part.length).into()];
            for (made, answer) in [
                (Call::Lend(part), Answer::accepted(&range)),
                (Call::Claim(1, part), Answer::accepted(&[length.into()])),
                (Call::Release(0, part), Answer::accepted(&[charge])),
                (Call::Release(1, part), Answer::refused(6)),
                (Call::Reallocate(0, part, 8), Answer::refused(5)),
            ] {
                assert_eq!(call(&mut pair, &state, made), answer, "{made}");
            }
        }
        let outside = [
            (base - 1, 2),
            (base, length + 1),
            (end - 1, 2),
            (end, 1),
            (end, 0),
        ];
        for part in outside.map(|(base, length)| part_of_1(base, length)) {
            names_nothing(&mut pair, &state, part);
        }
    }
}

/// A part answers and leaves what the whole handle does, and what is nearly a part names nothing.
#[test]
fn parts_in_any_consistent_state() {
    let mut pair = Pair::new();
    let mut compared = 0;
    for n in 0..400 {
        pair.begin("narrowed", SEED, n);
        let mut seed = Seed::of_case(SEED, n);
        let state = permitted(&sound(&mut seed));
        let Some(whole) = seed.any_of(&live_handles(&state.heap)) else {
            continue;
        };
        let quota = seed.below(QUOTAS as u32);
        for _ in 0..4 {
            let part = narrowed_handle(&mut seed, whole);
            for with in [Call::Claim, Call::Release, Call::CanRelease] {
                let (mut after, mut by_whole) = (state.clone(), state.clone());
                let answer = pair.call(&mut after, with(quota, part));
                let answer = answer.unwrap_or_else(|failure| panic!("{failure}"));
                assert_eq!(answer, by_whole.perform(with(quota, whole)), "{part:?}");
                assert_eq!(after, by_whole, "{part:?}");
                compared += 1;
            }
            for made in every_call(quota, part) {
                call(&mut pair, &state, made);
            }
            let beside = beside_handle(&mut seed, whole);
            assert_eq!(Ledger::read_off(&state).named(beside), None);
            names_nothing(&mut pair, &state, beside);
        }
    }
    println!("{}", pair.tally);
    assert!(compared >= 4_000, "{compared}");
}
