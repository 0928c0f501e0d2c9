//! Permissions (rules, section 15), on both sides of each line: the proved code and the reference
//! answer alike, and as the rules say.

use lokhazim_reference::{Accounts, Handle, ALL_PERMISSIONS, QUOTAS};
use lokhazim_tests::cases::states::permitted;
use lokhazim_tests::judge::forms::{FORM_1, FORM_2};
use lokhazim_tests::judge::rules::{broken, Sentence};
use lokhazim_tests::run::calls::Pair;
use lokhazim_tests::run::image_cases::image_of;
use lokhazim_tests::run::unsound::check_is_the_judges;
use lokhazim_tests::state::{Answer, Call, State, PLAIN};

/// The object of every state here.
const OBJECT: Handle = Handle {
    base: 8,
    length: 16,
    serial: 1,
};

/// A handle that names nothing.
const NOTHING: Handle = Handle {
    base: 0,
    length: 0,
    serial: 0,
};

/// Makes a call on both sides.
fn call(pair: &mut Pair, state: &mut State, call: Call) -> Answer {
    let answer = pair.call(state, call);
    answer.unwrap_or_else(|failure| panic!("{failure}"))
}

/// A heap of 256 bytes with one object that the first and the last quota hold.
fn begin(pair: &mut Pair) -> State {
    let mut state = State {
        heap: vec![0; 256],
        accounts: Accounts::default(),
    };
    let last = QUOTAS as u32 - 1;
    let calls = [
        Call::Open([1_000; QUOTAS], PLAIN),
        Call::Allocate(0, 16),
        Call::Claim(last, OBJECT),
    ];
    for made in calls {
        assert!(call(pair, &mut state, made).is_accepted(), "{made}");
    }
    state
}

#[test]
fn every_number_of_every_quota_is_judged_alike() {
    let mut pair = Pair::new();
    let state = begin(&mut pair);
    for number in 0..QUOTAS {
        for bits in 0..=255 {
            let mut changed = state.clone();
            changed.accounts.quotas[number].permissions = bits;
            let expected: &[Sentence] = match bits {
                0..=7 => &[],
                _ => &[Sentence::Permissions],
            };
            assert_eq!(broken(&changed), expected, "{bits}");
            check_is_the_judges(&mut pair, &changed).unwrap_or_else(|failure| panic!("{failure}"));
        }
    }
}

/// Calls of a quota that would be accepted, by the bit of the permission that each needs.
fn guarded(quota: u32) -> [(u32, Call); 9] {
    [
        (1, Call::Allocate(quota, 8)),
        (1, Call::Array(quota, 2, 4)),
        (1, Call::Reallocate(quota, OBJECT, 8)),
        (2, Call::Claim(quota, OBJECT)),
        (4, Call::FreeAll(quota)),
        (0, Call::Release(quota, OBJECT)),
        (0, Call::CanRelease(quota, OBJECT)),
        (0, Call::Remaining(quota)),
        (0, Call::ClearPermissions(quota, 7)),
    ]
}

#[test]
fn each_call_is_barred_by_its_own_bit_alone() {
    let mut pair = Pair::new();
    let state = begin(&mut pair);
    for quota in [0, QUOTAS as u32 - 1] {
        for bits in 0..8 {
            let mut cleared = state.clone();
            let left = u64::from(7 - bits);
            let answer = call(&mut pair, &mut cleared, Call::ClearPermissions(quota, bits));
            assert_eq!(answer, Answer::accepted(&[left]));
            for (needed, made) in guarded(quota) {
                let refusal = if bits & needed == 0 { 0 } else { 12 };
                let answer = call(&mut pair, &mut cleared.clone(), made);
                assert_eq!(answer.refusal, refusal, "{made} without {bits}");
            }
            // The other quota's calls go by its own permissions.
            for (_, made) in guarded(QUOTAS as u32 - 1 - quota) {
                let answer = call(&mut pair, &mut cleared.clone(), made);
                assert!(answer.is_accepted(), "{made}");
            }
        }
    }
}

#[test]
fn bits_above_the_third_mean_nothing() {
    let mut pair = Pair::new();
    let mut state = begin(&mut pair);
    for (bits, left) in [
        (0, 7),
        (8, 7),
        (0xFFFF_FFF8, 7),
        (0x0000_0102, 5),
        (2, 5),
        (0xFFFF_FFF9, 4),
        (u32::MAX, 0),
        (0, 0),
    ] {
        let answer = call(&mut pair, &mut state, Call::ClearPermissions(0, bits));
        assert_eq!(answer, Answer::accepted(&[left]), "{bits}");
        assert_eq!(u64::from(state.accounts.quotas[0].permissions), left);
    }
}

#[test]
fn line_12_comes_right_after_3() {
    let mut pair = Pair::new();
    let mut state = begin(&mut pair);
    for quota in 0..QUOTAS as u32 {
        call(&mut pair, &mut state, Call::ClearPermissions(quota, 7));
    }
    let calls = |quota| {
        [
            Call::Allocate(quota, 0),
            Call::Array(quota, 65_536, 65_536),
            Call::Claim(quota, NOTHING),
            Call::Claim(quota, OBJECT),
            Call::FreeAll(quota),
            Call::Reallocate(quota, NOTHING, 0),
        ]
    };
    for made in (0..QUOTAS as u32).flat_map(calls) {
        assert_eq!(call(&mut pair, &mut state, made), Answer::refused(12));
    }
    for made in [QUOTAS as u32, u32::MAX].into_iter().flat_map(calls) {
        assert_eq!(call(&mut pair, &mut state, made), Answer::refused(3));
    }
    let beyond = Call::ClearPermissions(QUOTAS as u32, 7);
    assert_eq!(call(&mut pair, &mut state, beyond), Answer::refused(3));
    state.accounts.quotas[0].remainder += 1;
    for made in calls(0) {
        assert_eq!(call(&mut pair, &mut state, made), Answer::refused(2));
    }
}

#[test]
fn an_opening_sets_all_and_a_refused_one_none() {
    let mut pair = Pair::new();
    let mut state = begin(&mut pair);
    call(&mut pair, &mut state, Call::ClearPermissions(0, 7));
    call(&mut pair, &mut state, Call::Open([9; QUOTAS], PLAIN));
    assert_eq!(state, permitted(&state));
    state.heap.truncate(65);
    assert_eq!(
        call(&mut pair, &mut state, Call::Open([9; QUOTAS], PLAIN)),
        Answer::refused(1)
    );
    assert_eq!(state.accounts, Accounts::default());
    // Zero accounts agree with a heap that is all free, and permit nothing.
    let mut other = begin(&mut pair);
    call(&mut pair, &mut other, Call::Open([0; QUOTAS], PLAIN));
    other.accounts = Accounts::default();
    assert!(call(&mut pair, &mut other, Call::Check).is_accepted());
    assert_eq!(
        call(&mut pair, &mut other, Call::Allocate(0, 8)),
        Answer::refused(12)
    );
}

#[test]
fn form_2_carries_permissions_and_form_1_refuses_them() {
    let mut pair = Pair::new();
    let state = begin(&mut pair);
    for quota in 0..QUOTAS {
        for bits in 0..ALL_PERMISSIONS {
            let mut cleared = state.clone();
            cleared.accounts.quotas[quota].permissions = bits;
            let needed = FORM_1.length(state.heap.len());
            for lent in [0, needed - 1, needed, needed + 1] {
                let (refusal, _) = pair
                    .write_image(FORM_1, &cleared, &vec![5; lent])
                    .unwrap_or_else(|failure| panic!("{failure}"));
                assert_eq!(refusal, 28, "{bits} into {lent} bytes");
            }
            let image = image_of(&mut pair, FORM_2, &cleared).expect("no difference");
            let (refusal, restored) = pair
                .read_image(&image, &state.heap)
                .unwrap_or_else(|failure| panic!("{failure}"));
            assert_eq!((refusal, restored), (0, cleared));
        }
    }
}

/// The run of rule 15.10.
#[test]
fn the_run_of_the_rule_book() {
    let mut pair = Pair::new();
    let mut state = State {
        heap: vec![0; 64],
        accounts: Accounts::default(),
    };
    let mut grants = [0; QUOTAS];
    grants[..2].fill(100);
    let object = Handle {
        length: 8,
        ..OBJECT
    };
    let steps = [
        (Call::Open(grants, PLAIN), Answer::accepted(&[])),
        (Call::ClearPermissions(0, 0), Answer::accepted(&[7])),
        (
            Call::ClearPermissions(0, 4_294_967_288),
            Answer::accepted(&[7]),
        ),
        (Call::Allocate(0, 8), Answer::accepted(&[8, 8, 1])),
        (Call::ClearPermissions(0, 1), Answer::accepted(&[6])),
        (Call::Allocate(0, 8), Answer::refused(12)),
        (Call::Claim(1, object), Answer::accepted(&[8])),
        (
            Call::ClearPermissions(1, 4_294_967_290),
            Answer::accepted(&[5]),
        ),
        (Call::Claim(1, object), Answer::refused(12)),
        (Call::ClearPermissions(1, 4), Answer::accepted(&[1])),
        (Call::FreeAll(1), Answer::refused(12)),
        (Call::Release(1, object), Answer::accepted(&[16])),
        (Call::FreeAll(0), Answer::accepted(&[16])),
    ];
    for (made, answer) in steps {
        assert_eq!(call(&mut pair, &mut state, made), answer, "{made}");
    }
}
