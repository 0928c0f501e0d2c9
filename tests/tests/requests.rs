//! Requests of every length in both editions: the proved code and the reference answer alike, and the
//! base is the lowest multiple of the unit of the object's length (rules 6.1 to 6.3 and 23.3).

use lokhazim_reference::{Accounts, QUOTAS};
use lokhazim_tests::run::calls::Pair;
use lokhazim_tests::state::{Answer, Call, Choice, State, PLAIN, SECOND};

/// The heap of every request here.
const LENGTH: u32 = 32_768;

/// An edition by what its objects are for requests up to a bound: the bounds, each with the unit.
struct Table {
    choice: Choice,
    rows: &'static [(u32, u32)],
}

/// Both editions. In the first, lengths from 8,185 and from 16,369 on are rounded into the next row.
const TABLES: [Table; 2] = [
    Table {
        choice: PLAIN,
        rows: &[(8_184, 8), (16_368, 16), (32_736, 32)],
    },
    Table {
        choice: SECOND,
        rows: &[(4_088, 8), (8_176, 16), (16_352, 32), (32_704, 64)],
    },
];

impl Table {
    /// Gives refusal, base and length for a request in a heap that is free from a base on.
    fn wanted(&self, request: u32, first_base: u32) -> (u32, u32, u32) {
        let row = self.rows.iter().find(|(greatest, _)| request <= *greatest);
        match (request, row) {
            (0, _) => (4, 0, 0),
            (_, Some((_, unit))) => (
                0,
                first_base.next_multiple_of(*unit),
                request.next_multiple_of(*unit),
            ),
            (..=32_760, None) => (11, 0, 0),
            _ => (4, 0, 0),
        }
    }
}

/// Makes a call on both sides.
fn made(pair: &mut Pair, state: &mut State, call: Call) -> Answer {
    let answer = pair.call(state, call);
    answer.unwrap_or_else(|failure| panic!("{failure}"))
}

/// Makes a fresh heap whose quotas can pay for any request.
fn fresh(pair: &mut Pair, choice: Choice) -> State {
    let mut state = State {
        heap: vec![0; LENGTH as usize],
        accounts: Accounts::default(),
    };
    made(pair, &mut state, Call::Open([2 * LENGTH; QUOTAS], choice));
    state
}

/// Gives each power of two of 32 bits with the numbers beside it, and the greatest number.
fn powers() -> impl Iterator<Item = u32> {
    let beside = |bit: u32| [-1, 0, 1].map(|step| (1_u32 << bit).wrapping_add_signed(step));
    (0..u32::BITS).flat_map(beside).chain([u32::MAX])
}

/// Makes the call of every request on the same state, which is free from a base on.
fn every_request(
    pair: &mut Pair,
    table: &Table,
    state: &State,
    first_base: u32,
    call: impl Fn(u32) -> Call,
) {
    for request in (0..=LENGTH).chain(powers()) {
        pair.begin("requests", 0, u64::from(request));
        let answer = made(pair, &mut state.clone(), call(request));
        let handle = answer.handle();
        let given = (answer.refusal, handle.base, handle.length);
        assert_eq!(given, table.wanted(request, first_base), "{request}");
    }
}

#[test]
fn every_request_on_a_fresh_heap() {
    for table in &TABLES {
        let mut pair = Pair::new();
        let state = fresh(&mut pair, table.choice);
        let call = |request| Call::Allocate(0, request);
        every_request(&mut pair, table, &state, 8, call);
        assert_eq!(pair.tally.all_calls(), 1 + 32_769 + 97);
    }
}

#[test]
fn every_new_length_behind_an_object() {
    for table in &TABLES {
        let mut pair = Pair::new();
        let mut state = fresh(&mut pair, table.choice);
        let handle = made(&mut pair, &mut state, Call::Allocate(0, 8)).handle();
        let call = |request| Call::Reallocate(0, handle, request);
        every_request(&mut pair, table, &state, 24, call);
    }
}
