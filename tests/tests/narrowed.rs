//! Handles that were narrowed (rules 4.3 and 4.6 to 4.10), on both sides of each line: the proved
//! code and the reference answer alike, and as the rules say.

use lokhazim_reference::{Accounts, Handle, QUOTAS};
use lokhazim_tests::judge::cut::{header, live_handles, put};
use lokhazim_tests::run::calls::Pair;
use lokhazim_tests::state::{Answer, Call, State, PLAIN};

/// The length of the heap of most states here.
const HEAP: u32 = 96;

/// Its objects: at the heap's start, in the middle, behind a free block up to the heap's end.
const OBJECTS: [Handle; 3] = [handle(8, 8, 1), handle(24, 16, 2), handle(64, 32, 4)];

/// Makes a handle of its three numbers.
const fn handle(base: u32, length: u32, serial: u32) -> Handle {
    Handle {
        base,
        length,
        serial,
    }
}

/// Makes a call on both sides.
fn call(pair: &mut Pair, state: &mut State, call: Call) -> Answer {
    let answer = pair.call(state, call);
    answer.unwrap_or_else(|failure| panic!("{failure}"))
}

/// Opens a heap and makes calls that have to be accepted.
fn opened(pair: &mut Pair, length: u32, calls: &[Call]) -> State {
    let mut state = State {
        heap: vec![0; length as usize],
        accounts: Accounts::default(),
    };
    let open = [Call::Open([1_000; QUOTAS], PLAIN)];
    for made in open.iter().chain(calls) {
        assert!(call(pair, &mut state, *made).is_accepted(), "{made}");
    }
    state
}

/// Makes a heap with the objects, which quota 0 holds once. Every byte of an object differs from
/// those beside it.
fn begin(pair: &mut Pair) -> State {
    let hole = handle(48, 8, 3);
    let calls = [8, 16, 8, 32].map(|length| Call::Allocate(0, length));
    let calls = [calls.as_slice(), &[Call::Release(0, hole)]].concat();
    let mut state = opened(pair, HEAP, &calls);
    assert_eq!(live_handles(&state.heap), OBJECTS);
    for object in OBJECTS {
        for at in object.base..object.base + object.length {
            state.heap[at as usize] = 100 + at as u8;
        }
    }
    state
}

/// The object that a range of bytes names by rule 4.3, its bytes taken one by one.
fn named(part: Handle) -> Option<Handle> {
    let lies_in = |object: &Handle| {
        let bytes = object.base..object.base + object.length;
        let mut range = part.base..part.base + part.length;
        part.serial == object.serial && part.length > 0 && range.all(|at| bytes.contains(&at))
    };
    OBJECTS.into_iter().find(lies_in)
}

/// Every range in and around the heap, up to a byte longer than the longest object.
fn ranges() -> impl Iterator<Item = (u32, u32)> {
    (0..HEAP + 2).flat_map(|base| (0..34).map(move |length| (base, length)))
}

/// Every handle of a part of an object, the whole one among them.
fn parts(whole: Handle) -> impl Iterator<Item = Handle> {
    let starts = 0..whole.length;
    starts.flat_map(move |at| {
        let lengths = 1..=whole.length - at;
        lengths.map(move |length| handle(whole.base + at, length, whole.serial))
    })
}

#[test]
fn every_range_with_every_serial_is_lent_or_refused() {
    let mut pair = Pair::new();
    let mut state = begin(&mut pair);
    let mut lent = 0;
    for (base, length) in ranges() {
        for serial in 0..6 {
            let part = handle(base, length, serial);
            let expected = match named(part) {
                Some(_) => Answer::accepted(&[base.into(), (base + length).into()]),
                None => Answer::refused(5),
            };
            let answer = call(&mut pair, &mut state, Call::Lend(part));
            assert_eq!(answer, expected, "{part:?}");
            lent += u32::from(answer.is_accepted());
        }
    }
    assert_eq!(lent, 8 * 9 / 2 + 16 * 17 / 2 + 32 * 33 / 2);
}

#[test]
fn every_range_in_every_call_is_refused_or_acts_on_the_whole_object() {
    let mut pair = Pair::new();
    let state = begin(&mut pair);
    // The free block's serial, an older one and the middle object's.
    for serial in [0, 3, 2] {
        for (base, length) in ranges() {
            let part = handle(base, length, serial);
            for with in [Call::CanRelease, Call::Claim, Call::Release] {
                let mut after = state.clone();
                let answer = call(&mut pair, &mut after, with(0, part));
                let Some(whole) = named(part) else {
                    assert_eq!((answer, &after), (Answer::refused(5), &state), "{part:?}");
                    continue;
                };
                let mut by_whole = state.clone();
                assert_eq!(answer, by_whole.perform(with(0, whole)), "{part:?}");
                assert_eq!(after, by_whole, "{part:?}");
            }
        }
    }
}

/// Rule 4.8: answers, charges and refunds are those of the whole object.
#[test]
fn holds_are_on_the_whole_object() {
    let mut pair = Pair::new();
    let state = begin(&mut pair);
    for whole in OBJECTS {
        let (length, charge) = (u64::from(whole.length), u64::from(whole.length) + 8);
        for part in parts(whole) {
            let mut after = state.clone();
            let steps = [
                (Call::CanRelease(1, part), Answer::refused(6)),
                (Call::Release(1, part), Answer::refused(6)),
                (Call::Claim(1, part), Answer::accepted(&[length])),
                (Call::Remaining(1), Answer::accepted(&[1_000 - charge])),
                (Call::Claim(1, part), Answer::accepted(&[length])),
                (Call::Remaining(1), Answer::accepted(&[1_000 - charge])),
                (Call::Release(0, part), Answer::accepted(&[charge])),
                (Call::Release(1, part), Answer::accepted(&[0])),
                (Call::CanRelease(1, part), Answer::accepted(&[])),
                (Call::Release(1, part), Answer::accepted(&[charge])),
                (Call::Lend(part), Answer::refused(5)),
                (Call::Lend(whole), Answer::refused(5)),
            ];
            for (made, answer) in steps {
                assert_eq!(call(&mut pair, &mut after, made), answer, "{made}");
            }
        }
    }
}

/// Rule 4.9: a write is inside the handle's range, and nowhere else.
#[test]
fn writes_keep_to_the_range() {
    let mut pair = Pair::new();
    let state = begin(&mut pair);
    for part in OBJECTS[..2].iter().copied().flat_map(parts) {
        let beyond = [
            part.length,
            part.length + 1,
            16,
            HEAP,
            u32::MAX,
            0_u32.wrapping_sub(part.base),
        ];
        for at in (0..part.length).chain(beyond) {
            let (mut after, mut expected) = (state.clone(), state.clone());
            if at < part.length {
                expected.heap[(part.base + at) as usize] = 7;
            }
            let answer = call(&mut pair, &mut after, Call::Write(part, at, 7));
            assert!(answer.is_accepted(), "{part:?}");
            assert_eq!(after, expected, "{part:?} at {at}");
        }
    }
    for (base, length) in ranges() {
        let part = handle(base, length, 2);
        if named(part).is_none() {
            let mut after = state.clone();
            let answer = call(&mut pair, &mut after, Call::Write(part, 0, 7));
            assert_eq!((answer, &after), (Answer::refused(5), &state), "{part:?}");
        }
    }
}

/// Rule 4.10: line 5 for every handle but the whole one, at its place in the order.
#[test]
fn reallocate_takes_the_whole_handle_alone() {
    let mut pair = Pair::new();
    let state = begin(&mut pair);
    let mut barred = state.clone();
    call(&mut pair, &mut barred, Call::ClearPermissions(0, 1));
    for part in OBJECTS.into_iter().flat_map(parts) {
        let is_whole = OBJECTS.contains(&part);
        let later = |refusal: u32| if is_whole { refusal } else { 5 };
        for (before, quota, length, refusal) in [
            (&state, 0, 8, later(0)),
            (&state, 0, 80, later(11)),
            (&state, 0, 1_000, later(8)),
            (&state, 1, 8, later(6)),
            (&state, 0, 0, 4),
            (&state, 1, 32_761, 4),
            (&barred, 0, 0, 12),
            (&barred, 0, 8, 12),
            (&state, QUOTAS as u32, 8, 3),
        ] {
            let mut after = before.clone();
            let made = Call::Reallocate(quota, part, length);
            assert_eq!(call(&mut pair, &mut after, made).refusal, refusal, "{made}");
            assert!(refusal == 0 || after == *before, "{made}");
        }
    }
}

/// Every call with a handle, by quota 0.
fn every_call(part: Handle) -> [Call; 6] {
    [
        Call::Lend(part),
        Call::Write(part, 0, 7),
        Call::CanRelease(0, part),
        Call::Claim(0, part),
        Call::Release(0, part),
        Call::Reallocate(0, part, 8),
    ]
}

/// Checks that every call with the handle gives 5 and changes nothing.
fn names_nothing(pair: &mut Pair, state: &State, part: Handle) {
    for made in every_call(part) {
        let mut after = state.clone();
        assert_eq!(call(pair, &mut after, made), Answer::refused(5), "{made}");
        assert_eq!(after, *state, "{made}");
    }
}

#[test]
fn ends_beyond_32_bits_lie_outside() {
    let mut pair = Pair::new();
    let state = begin(&mut pair);
    for whole in OBJECTS {
        let (start, end) = (whole.base, whole.base + whole.length);
        for base in (start..=end).chain([u32::MAX, u32::MAX - 7, 1 << 31]) {
            // Modulo 2^32 the range would end in the object, at its end or where it starts.
            for last in start..=end {
                let length = last.wrapping_sub(base);
                if u64::from(base) + u64::from(length) >= 1 << 32 {
                    names_nothing(&mut pair, &state, handle(base, length, whole.serial));
                }
            }
            for length in [u32::MAX, u32::MAX - 7, 1 << 31, 1 << 16] {
                names_nothing(&mut pair, &state, handle(base, length, whole.serial));
            }
        }
    }
}

#[test]
fn another_serial_names_nothing() {
    let mut pair = Pair::new();
    let state = begin(&mut pair);
    for part in OBJECTS.into_iter().flat_map(parts) {
        for serial in [0, 1, 2, 3, 4, 5, 257, 65_537, u32::MAX] {
            if serial != part.serial {
                names_nothing(&mut pair, &state, Handle { serial, ..part });
            }
        }
    }
}

/// A handle of an object that is gone names nothing, whatever lies at its place now.
#[test]
fn parts_of_an_object_that_is_gone_name_nothing() {
    let mut pair = Pair::new();
    let mut state = begin(&mut pair);
    let gone = OBJECTS[1];
    call(&mut pair, &mut state, Call::Release(0, gone));
    parts(gone).for_each(|part| names_nothing(&mut pair, &state, part));
    let again = call(&mut pair, &mut state, Call::Allocate(0, 16));
    assert_eq!(again.handle(), Handle { serial: 5, ..gone });
    parts(gone).for_each(|part| names_nothing(&mut pair, &state, part));
}

/// Rule 4.4: bytes in an object that look like headers are no headers, whoever's serial they have.
#[test]
fn headers_inside_an_object_prove_nothing() {
    let mut pair = Pair::new();
    let plain = begin(&mut pair);
    for serial in [1, 2, 3, 4, 9] {
        let mut state = plain.clone();
        put(&mut state.heap, 64, header(16, 8, serial));
        put(&mut state.heap, 80, header(16, 16, serial));
        for part in [handle(72, 8, serial), handle(88, 8, serial)] {
            match serial {
                4 => {
                    let answer = call(&mut pair, &mut state.clone(), Call::Claim(1, part));
                    assert_eq!(answer, Answer::accepted(&[32]));
                    let made = Call::Reallocate(0, part, 8);
                    let answer = call(&mut pair, &mut state.clone(), made);
                    assert_eq!(answer, Answer::refused(5));
                }
                _ => names_nothing(&mut pair, &state, part),
            }
        }
    }
}

/// A claim by one byte pays for the whole object.
#[test]
fn a_claim_pays_for_the_whole_object() {
    let mut pair = Pair::new();
    let mut state = opened(&mut pair, HEAP, &[Call::Allocate(0, 16)]);
    for (quota, grant) in [(1, 23), (2, 24)] {
        state.accounts.quotas[quota].grant = grant;
        state.accounts.quotas[quota].remainder = grant;
    }
    let part = handle(23, 1, 1);
    let short = call(&mut pair, &mut state, Call::Claim(1, part));
    assert_eq!(short, Answer::refused(8));
    let paid = call(&mut pair, &mut state, Call::Claim(2, part));
    assert_eq!(paid, Answer::accepted(&[16]));
    assert_eq!(state.accounts.quotas[2].remainder, 0);
}
