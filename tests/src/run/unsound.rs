//! Calls on states that are damaged, on bytes and numbers of any kind, and on heaps of any length.

use lokhazim_reference::{Accounts, Hold, Quota, ALL_PERMISSIONS, HOLDS, QUOTAS};

use crate::cases::choice::{choose, one_of_each, Habits, MIXED};
use crate::cases::damage::{damaged_alone, damaged_together, Damage};
use crate::cases::forged::View;
use crate::cases::states::sound;
use crate::judge::compare::{call_failure, Failure};
use crate::judge::cut::{blocks, header, put, QUARANTINED};
use crate::judge::rules::check_refusal;
use crate::run::calls::Pair;
use crate::seed::Seed;
use crate::state::{Call, State};

/// How often a state is made anew where there was no place for a kind of damage.
const TRIES: u64 = 80;

/// The habits of calls on damaged states: such that most would be accepted on a consistent one.
const HABITS: Habits = Habits {
    weights: MIXED,
    quotas: QUOTAS as u32,
    wild: 8,
    narrow: 20,
    longest: 40,
};

/// Makes every call on a state in which one kind of damage breaks its rule alone.
pub fn alone(pair: &mut Pair, damage: &Damage, seed: u64, n: u64) -> Result<(), Failure> {
    pair.begin(damage.name, seed, n);
    let mut numbers = Seed::of_case(seed, n);
    let mut tries = 0..TRIES;
    let found = tries.find_map(|_| damaged_alone(&mut numbers, damage));
    let Some(state) = found else {
        return Ok(());
    };
    pair.tally.count_case(damage.name);
    every_call(pair, &mut numbers, &state)
}

/// Makes every call on a state with several kinds of damage.
pub fn together(pair: &mut Pair, seed: u64, n: u64) -> Result<(), Failure> {
    pair.begin("damaged-together", seed, n);
    let mut numbers = Seed::of_case(seed, n);
    let mut tries = 0..TRIES;
    let Some(state) = tries.find_map(|_| damaged_together(&mut numbers)) else {
        return Ok(());
    };
    pair.tally.count_case("damaged together");
    every_call(pair, &mut numbers, &state)
}

/// Makes one call of each kind on the same state.
fn every_call(pair: &mut Pair, seed: &mut Seed, state: &State) -> Result<(), Failure> {
    check_is_the_judges(pair, state)?;
    let view = View::new(&state.heap, &[]);
    for call in one_of_each(seed, &HABITS, &view, &state.accounts) {
        pair.call(&mut state.clone(), call)?;
    }
    Ok(())
}

/// Makes the check's call and holds it to the rules of section 5, judged one by one.
pub fn check_is_the_judges(pair: &mut Pair, state: &State) -> Result<(), Failure> {
    let answer = pair.call(&mut state.clone(), Call::Check)?;
    let wanted = check_refusal(state);
    if answer.refusal == wanted {
        return Ok(());
    }
    let wrong = [format!(
        "the check gives {wanted} by the sentences of 'Sound'"
    )];
    Err(call_failure(&pair.origin, state, Call::Check, &wrong))
}

/// Makes calls on a consistent state after a few changes anywhere, or on bytes and numbers of any kind.
pub fn noise(pair: &mut Pair, seed: u64, n: u64) -> Result<(), Failure> {
    pair.begin("noise", seed, n);
    let mut numbers = Seed::of_case(seed, n);
    let mut state = sound(&mut numbers);
    match numbers.below(8) {
        0 => state.heap.fill_with(|| numbers.byte()),
        1 => state.accounts = any_accounts(&mut numbers),
        _ => {
            for _ in 0..=numbers.below(3) {
                change_anything(&mut numbers, &mut state);
            }
        }
    }
    check_is_the_judges(pair, &state)?;
    for _ in 0..5 {
        let view = View::new(&state.heap, &[]);
        let call = choose(&mut numbers, &HABITS, &view, &state.accounts);
        pair.call(&mut state, call)?;
    }
    Ok(())
}

/// Makes every call on a heap of a length that may not be allowed.
pub fn lengths(pair: &mut Pair, seed: u64, n: u64) -> Result<(), Failure> {
    pair.begin("length", seed, n);
    let mut numbers = Seed::of_case(seed, n);
    let length = match numbers.below(8) {
        0 => numbers.below(64),
        1 => numbers.between(56, 72),
        2 => numbers.between(32_752, 32_784),
        3 => numbers.pick(&[0, 8, 56, 64, 65, 72, 32_760, 32_768, 32_769, 32_776]),
        4 => numbers.pick(&[65_528, 65_536, 65_600, 98_304, 131_136, 524_288, 524_352]),
        5 => 64 + numbers.below(2_000),
        _ => 8 * numbers.below(200) + numbers.pick(&[0, 0, 1, 4, 7]),
    };
    let state = one_free_block(&mut numbers, length);
    every_call(pair, &mut numbers, &state)
}

/// Gives a heap of any length with the header of one free block, as far as there is room for it.
fn one_free_block(seed: &mut Seed, length: u32) -> State {
    let mut heap = vec![0; length as usize];
    if length >= 8 {
        put(&mut heap, 0, header(length, 0, 0));
    }
    let quota = |amount| Quota {
        grant: amount,
        remainder: amount,
        permissions: ALL_PERMISSIONS,
    };
    let accounts = Accounts {
        quotas: std::array::from_fn(|_| quota(seed.odd_word())),
        last_serial: seed.odd_word(),
        kind: seed.below(2) as u8,
        edition: seed.below(2) as u8,
        ..Accounts::default()
    };
    State { heap, accounts }
}

/// Gives accounts of any numbers.
fn any_accounts(seed: &mut Seed) -> Accounts {
    let mut accounts = Accounts::default();
    for quota in &mut accounts.quotas {
        quota.grant = seed.odd_word();
        quota.remainder = seed.pick(&[quota.grant, seed.clone().odd_word()]);
        quota.permissions = seed.pick(&[ALL_PERMISSIONS, ALL_PERMISSIONS, 0, seed.clone().byte()]);
    }
    accounts.last_serial = seed.odd_word();
    accounts.kind = seed.pick(&[0, 0, 1, 1, seed.clone().byte()]);
    accounts.edition = seed.pick(&[0, 0, 1, 1, seed.clone().byte()]);
    for _ in 0..seed.below(4) {
        accounts.holds[seed.place(HOLDS)] = Hold {
            serial: seed.odd_word(),
            quota: seed.byte(),
            count: seed.byte(),
        };
    }
    accounts
}

/// Changes one bit or byte of the heap, or one number of the accounts.
fn change_anything(seed: &mut Seed, state: &mut State) {
    let State { heap, accounts } = state;
    let (at, quota, record) = (
        seed.place(heap.len()),
        seed.place(QUOTAS),
        seed.place(HOLDS),
    );
    let block = seed.any_of(&blocks(heap));
    let in_header = block.map_or(at, |b| b.offset as usize + at % 8);
    match seed.below(13) {
        0 => heap[at] = seed.byte(),
        1 => heap[at] ^= 1 << seed.below(8),
        2 | 3 => heap[in_header] ^= 1 << seed.below(8),
        4 => accounts.quotas[quota].grant = seed.odd_word(),
        5 => accounts.quotas[quota].remainder ^= 1 << seed.below(32),
        6 => accounts.last_serial = seed.odd_word(),
        7 => accounts.holds.swap(record, 0),
        8 => accounts.quotas[quota].permissions ^= 1 << seed.below(8),
        9 => accounts.kind ^= 1 << seed.below(8),
        11 => accounts.edition ^= 1 << seed.below(8),
        10 => {
            let serial = seed.pick(&[0, QUARANTINED]);
            let place = block.map_or(0, |b| b.offset as usize + 4);
            heap[place..place + 4].copy_from_slice(&serial.to_le_bytes());
        }
        _ => {
            let hold = &mut accounts.holds[record];
            match seed.below(3) {
                0 => hold.serial ^= 1 << seed.below(32),
                1 => hold.quota ^= 1 << seed.below(8),
                _ => hold.count = seed.byte(),
            }
        }
    }
}
