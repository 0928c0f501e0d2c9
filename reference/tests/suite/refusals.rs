//! Each refusal of each call, in order, over every set of lines that hold.

use crate::state::*;
use lokhazim_reference::*;

/// The quota that makes the calls.
const CALLER: u8 = QUOTAS as u8 - 1;

/// The object that the handle names.
const OBJECT: Handle = Handle {
    base: 8,
    length: 8,
    serial: 1,
};

/// The charge of the object, and of each request below.
const CHARGE: u32 = 16;

/// The lines of the table of refusals that are made to hold, by number.
#[derive(Clone, Copy)]
struct Lines(u32);

impl Lines {
    /// Tells whether the line of this number is made to hold.
    fn has(self, number: u8) -> bool {
        self.0 >> number & 1 == 1
    }

    /// Gives the first of the numbers whose line is made to hold.
    fn first_of(self, numbers: &[u8]) -> Option<u8> {
        numbers.iter().copied().find(|number| self.has(*number))
    }
}

/// Gives the records: as many as there are places if line 9 holds, else one less.
fn records(lines: Lines, objects: u32) -> Vec<Hold> {
    let mut holds = Vec::new();
    if !lines.has(6) {
        let count = if lines.has(7) { 255 } else { 254 };
        holds.push(hold(OBJECT.serial, CALLER, count));
    }
    for quota in 0..QUOTAS as u8 {
        for serial in 1..=objects {
            if (serial, quota) != (OBJECT.serial, CALLER) {
                holds.push(hold(serial, quota, 1));
            }
        }
    }
    holds.truncate(if lines.has(9) { HOLDS } else { HOLDS - 1 });
    holds
}

/// Makes heap and accounts for which the lines hold as far as they concern them.
fn state_for(lines: Lines) -> State {
    let objects = HOLDS.div_ceil(QUOTAS) as u32 + 1;
    let mut pieces: Vec<Piece> = (1..=objects).map(|serial| (16, serial)).collect();
    pieces.push((if lines.has(11) { 8 } else { 16 }, 0));
    let mut remainders = [1_000; QUOTAS];
    remainders[usize::from(CALLER)] = if lines.has(8) { CHARGE - 1 } else { CHARGE };
    let last_serial = if lines.has(10) { u32::MAX - 1 } else { objects };
    let mut state = State {
        heap: heap_of(&pieces),
        accounts: accounts_of(&pieces, &records(lines, objects), remainders, last_serial),
    };
    if lines.has(2) {
        state.accounts.quotas[0].grant += 1;
    }
    if lines.has(12) {
        state.accounts.quotas[usize::from(CALLER)].permissions = 0;
    }
    if lines.has(1) {
        state.heap.push(0);
    }
    state
}

/// Gives each call with the numbers that it can be refused with, in order.
fn calls_for(lines: Lines) -> Vec<(Call, Vec<u8>)> {
    let quota = QUOTAS as u32 - u32::from(!lines.has(3));
    let length = if lines.has(4) { 32_761 } else { 8 };
    let mut object = OBJECT;
    if lines.has(5) {
        object.serial += 1;
    }
    let claim_numbers = if lines.has(6) {
        vec![1, 2, 3, 12, 5, 8, 9]
    } else {
        vec![1, 2, 3, 12, 5, 7]
    };
    let allocate_numbers = vec![1, 2, 3, 12, 4, 8, 9, 10, 11];
    let reallocate_numbers = vec![1, 2, 3, 12, 4, 5, 6, 8, 9, 10, 11];
    vec![
        (Call::Allocate(quota, length), allocate_numbers.clone()),
        (Call::Array(quota, length, 1), allocate_numbers),
        (Call::Claim(quota, object), claim_numbers),
        (Call::Release(quota, object), vec![1, 2, 3, 5, 6]),
        (Call::FreeAll(quota), vec![1, 2, 3, 12]),
        (Call::Reallocate(quota, object, length), reallocate_numbers),
        (Call::Lend(object), vec![1, 2, 5]),
        (Call::Remaining(quota), vec![1, 2, 3]),
        (Call::CanRelease(quota, object), vec![1, 2, 3, 5, 6]),
        (Call::ClearPermissions(quota, 7), vec![1, 2, 3]),
        (Call::Sweep, vec![1, 2]),
        (Call::Step(0), vec![1, 2]),
    ]
}

#[test]
fn every_set_of_lines_gives_the_first_that_the_call_lists_or_is_accepted() {
    for set in (0..1 << 13).step_by(2) {
        let lines = Lines(set);
        let mut state = state_for(lines);
        for kind in KINDS {
            state.accounts.kind = kind.number();
            each_call_gives_its_first(lines, &state);
        }
    }
}

/// Checks that each call gives the first of its lines that holds.
fn each_call_gives_its_first(lines: Lines, state: &State) {
    for (call, numbers) in calls_for(lines) {
        let mut after = state.clone();
        match lines.first_of(&numbers) {
            Some(number) => after.refused(call, number),
            None => assert!(after.perform(call).is_ok(), "{call:?} with {:b}", lines.0),
        }
    }
}

#[test]
fn refusal_numbers_run_from_1_to_12() {
    let all = [
        Refusal::HeapLength,
        Refusal::NotSound,
        Refusal::QuotaNumber,
        Refusal::RequestLength,
        Refusal::NoObject,
        Refusal::NoRecord,
        Refusal::CountFull,
        Refusal::QuotaSpent,
        Refusal::RecordsFull,
        Refusal::SerialsSpent,
        Refusal::NoSpace,
        Refusal::NoPermission,
    ];
    let numbers: Vec<u8> = all.iter().map(|refusal| refusal.number()).collect();
    assert_eq!(numbers, (1..=12).collect::<Vec<u8>>());
}

#[test]
fn handles_with_bytes_outside_or_another_serial_find_no_object() {
    let mut state = opened(128, &[100]);
    let object = state.allocated(0, 16);
    let wrong = [
        handle(object.base + 8, object.length, object.serial),
        handle(object.base - 8, object.length, object.serial),
        handle(object.base, object.length + 8, object.serial),
        handle(object.base, object.length + 1, object.serial),
        handle(object.base, 0, object.serial),
        handle(object.base, object.length, object.serial + 1),
        handle(object.base, object.length, 0),
        handle(32, 96, 0),
        handle(32, 96, 1),
        handle(0, 0, 0),
        handle(7, 16, 1),
        handle(u32::MAX, u32::MAX, u32::MAX),
        handle(object.base, u32::MAX, object.serial),
        handle(u32::MAX - 7, object.length, object.serial),
    ];
    for named in wrong {
        state.refused(Call::Claim(0, named), 5);
        state.refused(Call::Release(0, named), 5);
        state.refused(Call::Reallocate(0, named, 8), 5);
        state.refused(Call::Lend(named), 5);
        state.refused(Call::CanRelease(0, named), 5);
    }
}

#[test]
fn quota_numbers_above_one_byte_are_refused() {
    let mut state = opened(128, &[100]);
    let object = state.allocated(0, 16);
    for quota in [QUOTAS as u32, 255, 256, 1 << 16, 1 << 31, u32::MAX] {
        for call in one_of_each(quota, object, 8) {
            if !matches!(call, Call::Lend(_) | Call::Sweep | Call::Step(_)) {
                state.refused(call, 3);
            }
        }
    }
}

#[test]
fn count_reaches_255_and_no_further() {
    let mut state = opened(64, &[16]);
    let object = state.allocated(0, 8);
    for count in 2..=255 {
        assert_eq!(state.number(Call::Claim(0, object)), 8);
        assert_eq!(state.accounts.holds[0].count, count);
    }
    state.refused(Call::Claim(0, object), 7);
    assert_eq!(state.remainder(0), 0);
    for _ in 0..254 {
        assert_eq!(state.number(Call::Release(0, object)), 0);
    }
    assert_eq!(state.number(Call::Release(0, object)), 16);
    state.refused(Call::Release(0, object), 5);
}

#[test]
fn charge_equal_to_the_remainder_is_accepted() {
    let mut state = opened(64, &[24, 23]);
    state.refused(Call::Allocate(1, 9), 8);
    let object = state.allocated(0, 9);
    assert_eq!(state.remainder(0), 0);
    state.refused(Call::Claim(1, object), 8);
}

#[test]
fn last_serial_may_be_given_once() {
    for kind in KINDS {
        let mut state = opened_with(64, &[100], of_kind(kind));
        state.accounts.last_serial = u32::MAX - 2;
        let last = handle(8, 8, u32::MAX - 1);
        assert_eq!(state.allocated(0, 8), last);
        state.refused(Call::Allocate(0, 8), 10);
        state.refused(Call::Reallocate(0, last, 8), 10);
        assert_eq!(state.number(Call::FreeAll(0)), 16);
        state.refused(Call::Allocate(0, 8), 10);
        state.number(Call::Sweep);
        state.refused(Call::Allocate(0, 8), 10);
    }
}

#[test]
fn reallocate_needs_quota_record_and_space_while_the_old_object_counts() {
    let mut spent = opened(128, &[31]);
    let object = spent.allocated(0, 8);
    spent.refused(Call::Reallocate(0, object, 8), 8);
    let mut narrow = opened(64, &[1_000]);
    let object = narrow.allocated(0, 24);
    narrow.refused(Call::Reallocate(0, object, 25), 11);
    let moved = narrow.perform(Call::Reallocate(0, object, 24));
    assert_eq!(moved, Ok(Answer::Object(handle(40, 24, 2))));
    narrow.refused(Call::Reallocate(0, object, 24), 5);
}

#[test]
fn serials_start_again_at_opening_and_old_handles_mean_nothing() {
    let mut state = opened(128, &[1_000]);
    let object = state.allocated(0, 8);
    let (accounts, answer) = open(&mut state.heap, grants(&[1_000]));
    assert_eq!(answer, Ok(()));
    state.accounts = accounts;
    state.refused(Call::Lend(object), 5);
    assert_eq!(state.allocated(0, 24).serial, 1);
}
