//! The choice of one call and its arguments, with what is known of a heap.

use lokhazim_reference::{Accounts, Handle, QUOTAS};

use crate::cases::forged::{forged_handle, live_handle, View};
use crate::cases::narrowing::sometimes_narrowed;
use crate::judge::forms::FORM_1;
use crate::seed::Seed;
use crate::state::{Call, Choice};

/// What kinds of calls are made, by the places of `Call::NAMES`.
pub type Weights = [u32; Call::NAMES.len()];

/// Makes objects more often than it drops them.
pub const GROWING: Weights = [0, 30, 8, 8, 6, 0, 8, 3, 4, 2, 3, 2, 1, 1, 1];

/// Drops objects more often than it makes them.
pub const SHRINKING: Weights = [0, 7, 3, 5, 38, 3, 7, 3, 4, 2, 4, 2, 1, 1, 2];

/// Claims and releases.
pub const SHARING: Weights = [0, 6, 2, 36, 16, 2, 4, 3, 4, 2, 4, 2, 1, 1, 1];

/// Every call.
pub const MIXED: Weights = [1, 12, 6, 12, 14, 3, 12, 6, 6, 5, 8, 6, 3, 3, 3];

/// The calls that the replay program knows, making as many objects as they drop.
pub const REPLAYED: Weights = [0, 26, 8, 14, 26, 2, 14, 0, 0, 0, 0, 0, 0, 0, 0];

/// Lengths on both sides of each row of both rounding tables and of refusal 4.
pub const EDGES: [u32; 36] = [
    0, 1, 7, 8, 9, 15, 16, 17, 4_088, 4_089, 4_096, 4_097, 8_176, 8_177, 8_184, 8_185, 8_190,
    8_191, 8_192, 8_193, 8_208, 8_209, 16_352, 16_353, 16_368, 16_369, 16_376, 16_383, 16_384,
    16_385, 32_704, 32_705, 32_736, 32_737, 32_760, 32_761,
];

/// How arguments are chosen.
#[derive(Clone, Copy, Debug)]
pub struct Habits {
    /// Which kinds of calls are made how often.
    pub weights: Weights,
    /// How many quotas are used, from 0 on.
    pub quotas: u32,
    /// In how many of a hundred cases an argument is any number or a handle is forged.
    pub wild: u32,
    /// In how many of a hundred cases the handle of a live object is made narrower.
    pub narrow: u32,
    /// The longest length that is asked for as a matter of course.
    pub longest: u32,
}

/// Chooses a call and its arguments.
pub fn choose(seed: &mut Seed, habits: &Habits, view: &View, accounts: &Accounts) -> Call {
    let quota = quota(seed, habits);
    match seed.weighted(&habits.weights) {
        0 => Call::Open(std::array::from_fn(|_| seed.odd_word()), choice(seed)),
        1 => Call::Allocate(quota, length(seed, habits, view)),
        2 => array(seed, habits, view, quota),
        3 => Call::Claim(quota, handle(seed, habits, view)),
        4 => held(seed, habits, view, accounts, Call::Release),
        5 => Call::FreeAll(quota),
        6 => {
            let n = length(seed, habits, view);
            // A narrowed handle is always refused here.
            let narrow = habits.narrow / 4;
            held(
                seed,
                &Habits { narrow, ..*habits },
                view,
                accounts,
                |q, h| Call::Reallocate(q, h, n),
            )
        }
        7 => Call::Lend(handle(seed, habits, view)),
        8 => write(seed, habits, view),
        9 => Call::Remaining(quota),
        10 => held(seed, habits, view, accounts, Call::CanRelease),
        11 => Call::List(place(seed, habits, view)),
        12 => Call::Check,
        13 => Call::ClearPermissions(quota, permission_bits(seed)),
        _ => Call::Sweep,
    }
}

/// Gives one call of each kind, with arguments that are mostly in order.
pub fn one_of_each(seed: &mut Seed, habits: &Habits, view: &View, books: &Accounts) -> Vec<Call> {
    let kinds = 0..Call::NAMES.len();
    let mut chosen = |kind: usize| {
        let mut weights = [0; Call::NAMES.len()];
        weights[kind] = 1;
        let habits = Habits { weights, ..*habits };
        choose(seed, &habits, view, books)
    };
    kinds.map(&mut chosen).collect()
}

/// Gives a quota's number, now and then one that no quota has.
fn quota(seed: &mut Seed, habits: &Habits) -> u32 {
    if seed.percent(habits.wild / 3) {
        let first = QUOTAS as u32;
        return seed.pick(&[
            first,
            first + 1,
            255,
            256,
            u32::MAX,
            seed.clone().odd_word(),
        ]);
    }
    seed.below(habits.quotas)
}

/// Gives a handle, most often of a live object or a part of one.
fn handle(seed: &mut Seed, habits: &Habits, view: &View) -> Handle {
    if seed.percent(habits.wild) {
        return forged_handle(seed, view);
    }
    let whole = live_handle(seed, view);
    sometimes_narrowed(seed, habits.narrow, whole)
}

/// Makes a call of a quota on an object that it most often has a record for.
fn held(
    seed: &mut Seed,
    habits: &Habits,
    view: &View,
    accounts: &Accounts,
    call: impl Fn(u32, Handle) -> Call,
) -> Call {
    let mut used = accounts.holds.to_vec();
    used.retain(|hold| hold.is_used());
    let record = seed.any_of(&used);
    let object = record.and_then(|hold| view.live.iter().find(|h| h.serial == hold.serial));
    match (record, object) {
        (Some(hold), Some(object)) if !seed.percent(habits.wild) => {
            let handle = sometimes_narrowed(seed, habits.narrow, *object);
            call(u32::from(hold.quota), handle)
        }
        _ => call(quota(seed, habits), handle(seed, habits, view)),
    }
}

/// Gives a requested length.
pub fn length(seed: &mut Seed, habits: &Habits, view: &View) -> u32 {
    if seed.percent(habits.wild / 2) {
        return match seed.percent(60) {
            true => seed.pick(&EDGES),
            false => seed.odd_word(),
        };
    }
    let free = view.free_sizes();
    match (seed.below(4), seed.any_of(&free)) {
        (0, Some(size)) => (size - 8).saturating_sub(seed.below(9)).max(1),
        (1, Some(size)) if seed.percent(40) => (size + seed.below(17)).saturating_sub(8).max(1),
        _ if habits.longest > 4_096 && seed.percent(40) => seed.pick(&EDGES),
        _ => seed.between(1, habits.longest),
    }
}

/// Chooses count and size of an array.
fn array(seed: &mut Seed, habits: &Habits, view: &View, quota: u32) -> Call {
    if seed.percent(habits.wild) {
        let (count, size) = odd_product(seed);
        return Call::Array(quota, count, size);
    }
    let length = length(seed, habits, view);
    let size = seed.pick(&[1, 2, 3, 4, 8, 12, 16, 40]);
    let (count, size) = (length.div_ceil(size).max(1), size);
    match seed.percent(50) {
        true => Call::Array(quota, count, size),
        false => Call::Array(quota, size, count),
    }
}

/// Gives two factors whose product is 0, near the limit of refusal 4, or small only modulo 2^32.
pub fn odd_product(seed: &mut Seed) -> (u32, u32) {
    let small = seed.between(1, 64);
    let (count, size) = match seed.below(9) {
        0 => (0, seed.odd_word()),
        1 => (65_536, 65_536),
        2 => (u32::MAX, u32::MAX),
        3 => (small, 32_760 / small + seed.below(2)),
        // 2^32 + something small, if it were cut down to 32 bits.
        4 => (65_537, 65_536 - seed.below(2)),
        5 => (1 << 31, 2 * small),
        6 => (u32::MAX, small),
        7 => {
            let even = 1 << seed.between(1, 31);
            (
                even,
                ((1_u64 << 32) / u64::from(even)) as u32 + seed.below(2),
            )
        }
        _ => (seed.odd_word(), seed.odd_word()),
    };
    match seed.percent(50) {
        true => (count, size),
        false => (size, count),
    }
}

/// Gives a number whose lowest three bits name permissions, most often one of them or none, and
/// whose other bits mean nothing.
fn permission_bits(seed: &mut Seed) -> u32 {
    let any = seed.below(8);
    let named = seed.pick(&[0, 1, 2, 4, any]);
    match seed.below(10) {
        0 => u32::MAX,
        1 => seed.odd_word(),
        2..=4 => named | seed.word() << 3,
        _ => named,
    }
}

/// Chooses a write, most often inside the handle's range.
fn write(seed: &mut Seed, habits: &Habits, view: &View) -> Call {
    let handle = handle(seed, habits, view);
    let at = match seed.percent(habits.wild) {
        true => seed.pick(&[handle.length, handle.length.wrapping_add(1), u32::MAX]),
        false => seed.below(handle.length.max(1)),
    };
    Call::Write(handle, at, seed.byte())
}

/// Chooses a place of the listing, most often where a block starts.
fn place(seed: &mut Seed, habits: &Habits, view: &View) -> usize {
    let end = view.heap.len();
    if seed.percent(habits.wild) || view.blocks.is_empty() {
        let any = seed.draw() as usize;
        let inside = seed.place(end + 9);
        return seed.pick(&[
            end,
            end + 8,
            inside,
            inside / 8 * 8,
            usize::MAX,
            1 << 32,
            any,
        ]);
    }
    view.blocks[seed.place(view.blocks.len())].offset as usize
}

/// Gives the numbers of kind and edition for an opening: each kind and each edition as often as the
/// other, the second ones also by a number that no accounts have.
pub fn choice(seed: &mut Seed) -> Choice {
    let mut number = || {
        let any = seed.odd_word().max(2);
        seed.pick(&[0, 0, 0, 1, 1, any])
    };
    Choice::of(number(), number())
}

/// Gives grants: ample, middling, small, none, or any; now and then to no more quotas than form 1 has.
pub fn grants(seed: &mut Seed) -> [u32; QUOTAS] {
    let way = seed.below(9);
    let quotas = seed.pick(&[FORM_1.quotas, QUOTAS, QUOTAS]);
    std::array::from_fn(|number| match way {
        _ if number >= quotas => 0,
        0 => u32::MAX - seed.below(3),
        1 => seed.between(100, 3_000),
        2 => seed.pick(&[0, 16, 24, 100, 1_000]),
        3 => seed.odd_word(),
        _ => seed.between(40_000, 400_000),
    })
}
