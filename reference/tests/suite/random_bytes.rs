//! Any bytes of any length with any accounts: no call panics or half-works.

use crate::naive;
use crate::prng::Prng;
use crate::state::*;
use lokhazim_reference::*;

/// Gives accounts with any numbers, some of them zero.
fn any_accounts(prng: &mut Prng) -> Accounts {
    let mut accounts = Accounts {
        last_serial: prng.odd_word(),
        kind: prng.pick(&[0, 0, 1, 1, 2, 255]),
        edition: prng.pick(&[0, 0, 1, 1, 2, 255]),
        ..Accounts::default()
    };
    for quota in &mut accounts.quotas {
        quota.grant = prng.odd_word();
        quota.remainder = prng.odd_word();
        quota.permissions = prng.byte();
    }
    for record in &mut accounts.holds {
        if prng.percent(50) {
            *record = hold(prng.odd_word(), prng.byte(), prng.byte());
        }
    }
    accounts
}

/// Gives any bytes, with zeros among them as often as the share says.
fn any_bytes(prng: &mut Prng, length: usize, zeros: u32) -> Vec<u8> {
    (0..length)
        .map(|_| if prng.percent(zeros) { 0 } else { prng.byte() })
        .collect()
}

/// Gives any call with any numbers.
fn any_call(prng: &mut Prng) -> Call {
    let quota = prng.pick(&[0, 1, QUOTAS as u32 - 1, QUOTAS as u32, u32::MAX]);
    let named = handle(prng.odd_word(), prng.odd_word(), prng.odd_word());
    let length = prng.odd_word();
    let place = prng.next() as usize;
    let mut calls = one_of_each(quota, named, length);
    calls.push(Call::Array(quota, prng.odd_word(), prng.odd_word()));
    calls.push(Call::Step(place));
    prng.pick(&calls)
}

/// Makes a call and checks that a refusal changes nothing.
fn make(state: &State, call: Call) -> Result<Answer, Refusal> {
    let mut after = state.clone();
    let answer = after.perform(call);
    if answer.is_err() {
        assert!(after == *state, "a refused {call:?} changed something");
    }
    answer
}

#[test]
fn any_bytes_of_any_length_with_any_accounts() {
    let mut prng = Prng::new(1);
    for round in 0..1_200 {
        let length = match round % 4 {
            0 => prng.index(200),
            1 => 64 + 8 * prng.index(20),
            2 => prng.pick(&[32_760, 32_767, 32_768, 32_769, 32_776, 40_000]),
            _ => prng.pick(&[0, 1, 7, 8, 56, 63, 64, 65, 72]),
        };
        let zeros = prng.below(101);
        let state = State {
            heap: any_bytes(&mut prng, length, zeros),
            accounts: any_accounts(&mut prng),
        };
        let allowed = length % 8 == 0 && (64..=32_768).contains(&length);
        let refusal = if allowed {
            Refusal::NotSound
        } else {
            Refusal::HeapLength
        };
        if !allowed || !naive::is_sound(&state.heap, &state.accounts) {
            assert_eq!(make(&state, any_call(&mut prng)), Err(refusal));
            assert_eq!(check(&state.heap, &state.accounts), Err(refusal));
        }
        open_any(&mut prng, state.heap, allowed);
    }
}

/// Opens a heap with any bytes and any grants.
fn open_any(prng: &mut Prng, mut heap: Vec<u8>, allowed: bool) {
    let before = heap.clone();
    let grants = [0; QUOTAS].map(|_| prng.odd_word());
    let (accounts, answer) = open(&mut heap, grants);
    if allowed {
        assert_eq!(answer, Ok(()));
        assert_eq!(check(&heap, &accounts), Ok(()));
        assert_eq!(accounts.quotas.map(|quota| quota.grant), grants);
    } else {
        assert_eq!(answer, Err(Refusal::HeapLength));
        assert_eq!((heap, accounts), (before, Accounts::default()));
    }
}

/// Gives a heap of plausible blocks that often breaks some rule.
fn plausible_pieces(prng: &mut Prng) -> Vec<Piece> {
    let mut pieces = Vec::new();
    let mut left = 64 + 8 * prng.below(24);
    let mut free_before = false;
    while left > 0 {
        let size = (8 * (1 + prng.below(6))).min(left);
        let may_be_live = size > 8 || prng.percent(2);
        let free = !may_be_live || (!free_before && prng.percent(40));
        let serial = if prng.percent(10) {
            QUARANTINED_SERIAL
        } else {
            1 + prng.below(60)
        };
        pieces.push((size, if free { 0 } else { serial }));
        free_before = free;
        left -= size;
    }
    pieces
}

/// Gives records that mostly fit the pieces.
fn plausible_records(prng: &mut Prng, pieces: &[Piece]) -> Vec<Hold> {
    let mut holds = Vec::new();
    let hold_all = prng.percent(5);
    let live = |serial: u32| serial != 0 && (serial != QUARANTINED_SERIAL || hold_all);
    for &(_, serial) in pieces.iter().filter(|(_, serial)| live(*serial)) {
        let quota = prng.below(3) as u8;
        let count = prng.pick(&[1, 1, 2, 255]);
        holds.push(hold(serial, quota, count));
        if prng.percent(40) {
            holds.push(Hold::UNUSED);
        }
        if prng.percent(30) {
            holds.push(hold(serial, quota + 1, 1));
        }
    }
    if prng.percent(5) {
        holds.push(hold(
            prng.below(70),
            prng.below(QUOTAS as u32 + 1) as u8,
            prng.below(2) as u8,
        ));
    }
    holds
}

#[test]
fn plausible_heaps_are_judged_alike_and_stay_sound() {
    let mut prng = Prng::new(2);
    let mut sounds = 0;
    for _ in 0..3_000 {
        let pieces = plausible_pieces(&mut prng);
        let holds = plausible_records(&mut prng, &pieces);
        let last_serial = prng.pick(&[60, 60, 60, 61, 50, u32::MAX - 1, u32::MAX]);
        let mut state = State {
            heap: heap_of(&pieces),
            accounts: accounts_of(&pieces, &holds, grants(&[0, 100, 1_000]), last_serial),
        };
        state.accounts.kind = prng.pick(&[0, 1, 1, 1, 1, 2]);
        state.accounts.edition = prng.pick(&[0, 0, 0, 1, 1, 1, 2]);
        let sound = naive::is_sound(&state.heap, &state.accounts);
        assert_eq!(check(&state.heap, &state.accounts).is_ok(), sound);
        sounds += usize::from(sound);
        let call = call_on(&mut prng, &pieces);
        let answer = make(&state, call);
        assert_eq!(answer == Err(Refusal::NotSound), !sound);
        if answer.is_ok() {
            let _ = state.perform(call);
            assert!(naive::is_sound(&state.heap, &state.accounts));
        }
    }
    assert!(
        (500..2_900).contains(&sounds),
        "{sounds} of the heaps were sound"
    );
}

/// Gives a call with a handle of one of the pieces.
fn call_on(prng: &mut Prng, pieces: &[Piece]) -> Call {
    let chosen = prng.index(pieces.len());
    let offset: u32 = pieces[..chosen].iter().map(|(size, _)| size).sum();
    let (size, serial) = pieces[chosen];
    let named = handle(offset + 8, size - 8, serial);
    let quota = prng.below(4);
    let length = 1 + prng.below(50);
    let calls = one_of_each(quota, named, length);
    prng.pick(&calls)
}

#[test]
fn any_input_of_replay_gives_lines_of_answers() {
    let mut prng = Prng::new(3);
    let words = [
        "open",
        "alloc",
        "array",
        "claim",
        "free",
        "all",
        "realloc",
        "0",
        "1",
        "8",
        "16",
        "64",
        "128",
        "4294967295",
        "4294967296",
        "\n",
        "\n",
        "\n",
        " ",
        "-",
        "07",
    ];
    let zeros = " 900".repeat(QUOTAS);
    for _ in 0..2_000 {
        let mut input = String::new();
        if prng.percent(90) {
            input = format!("open 128{zeros}\n");
        }
        for _ in 0..prng.below(40) {
            input.push_str(prng.pick(&words));
            input.push_str(prng.pick(&[" ", " ", " ", "\n", ""]));
        }
        let output = String::from_utf8(replay(input.as_bytes())).expect("the output is text");
        assert!(output.ends_with('\n') && !output.contains("\n\n"));
    }
    for length in 0..300 {
        assert_eq!(replay(&any_bytes(&mut prng, length, 10)), b"bad\n");
    }
}
