//! Scripts by theme, each made from a seed.

use lokhazim_reference::{Handle, HOLDS, MAX_INPUT, QUOTAS};

use crate::cases::choice::{grants, odd_product, Habits, EDGES, GROWING, REPLAYED, SHARING};
use crate::cases::forged::{forged_handle, View};
use crate::cases::malformed;
use crate::cases::narrowing;
use crate::cases::script::{open_line, Script};
use crate::cases::states::heap_length;
use crate::seed::Seed;
use crate::state::Call;

/// A theme: its name and how a script is made.
pub struct Theme {
    /// The name, as it stands in the names of saved files.
    pub name: &'static str,
    /// Makes a script.
    pub make: fn(&mut Seed) -> Vec<u8>,
}

/// Makes a theme.
const fn theme(name: &'static str, make: fn(&mut Seed) -> Vec<u8>) -> Theme {
    Theme { name, make }
}

/// Every theme.
pub const THEMES: [Theme; 15] = [
    theme("near-full", near_full),
    theme("fragmented", fragmented),
    theme("spent-quotas", spent_quotas),
    theme("full-counts", full_counts),
    theme("full-records", full_records),
    theme("forged-handles", forged_handles),
    theme("narrowed-handles", narrowing::script),
    theme("rounding-edges", rounding_edges),
    theme("array-products", array_products),
    theme("longest-input", longest_input),
    theme("openings", openings),
    theme("reallocations", reallocations),
    theme("free-alls", free_alls),
    theme("mixed", mixed),
    theme("malformed", malformed::script),
];

/// A grant that every request of a script can be charged to.
const AMPLE: u32 = 10_000_000;

/// The habits of chosen lines.
fn habits(seed: &mut Seed, length: u32) -> Habits {
    Habits {
        weights: REPLAYED,
        quotas: seed.pick(&[1, 2, 8, QUOTAS as u32]),
        wild: seed.pick(&[2, 8, 20]),
        narrow: seed.pick(&[0, 20]),
        longest: seed.pick(&[16, 40, length / 8, length / 4]),
    }
}

/// Fills a heap until not even one byte fits, then releases and fills again.
fn near_full(seed: &mut Seed) -> Vec<u8> {
    let length = heap_length(seed);
    let mut script = Script::open_with(length, AMPLE);
    let mut longest = (length / seed.pick(&[3, 6, 20, 90])).max(8);
    fill(seed, &mut script, &mut longest);
    for _ in 0..seed.between(3, 12) {
        for _ in 0..seed.between(1, 3) {
            if let Some(object) = seed.any_of(&script.live()) {
                script.release(object);
                let change = seed.pick(&[0, 0, 1, 8, 16]);
                script.call(Call::Allocate(1, object.length + change));
            }
        }
        longest = (length / 10).max(8);
        fill(seed, &mut script, &mut longest);
    }
    script.text
}

/// Allocates shorter and shorter objects until none fits or the records are used up.
fn fill(seed: &mut Seed, script: &mut Script, longest: &mut u32) {
    for _ in 0..200 {
        let quota = seed.below(QUOTAS as u32);
        let answer = script.call(Call::Allocate(quota, seed.between(1, *longest)));
        match answer.refusal {
            0 => {}
            11 if *longest > 1 => *longest /= 2,
            _ => return,
        }
    }
}

/// Makes many small objects, releases every other one, asks for a little more than the holes
/// have, and releases the rest in any order.
fn fragmented(seed: &mut Seed) -> Vec<u8> {
    let length = 8 * seed.between(16, 400);
    let mut script = Script::open_with(length, AMPLE);
    let size = seed.pick(&[8, 16, 24, 40]);
    for _ in 0..seed.between(20, 200) {
        script.call(Call::Allocate(seed.below(3), seed.between(1, size)));
    }
    let objects = script.live();
    for object in objects.iter().step_by(2) {
        script.release(*object);
    }
    for _ in 0..12 {
        script.call(Call::Allocate(3, size + seed.below(24)));
    }
    let mut left = script.live();
    seed.shuffle(&mut left);
    let kept = seed.place(left.len() + 1).min(3);
    for object in left.into_iter().skip(kept) {
        script.release(object);
        if seed.percent(25) {
            script.call(Call::Allocate(4, seed.between(1, length / 2)));
        }
    }
    script.text
}

/// Asks for lengths whose charge is just what is left of a quota, and just more.
fn spent_quotas(seed: &mut Seed) -> Vec<u8> {
    let mut script = Script::open(8 * seed.between(16, 600), small_grants(seed));
    for _ in 0..seed.between(20, 60) {
        let quota = seed.place(QUOTAS);
        let left = script.state.accounts.quotas[quota].remainder;
        let fits = left.min(30_000).saturating_sub(8);
        let near = (fits + seed.below(18)).saturating_sub(9);
        let live = script.live();
        match (seed.below(8), seed.any_of(&live)) {
            (0, Some(object)) => script.release(object),
            (1 | 2, Some(object)) => script.call(Call::Claim(quota as u32, object)),
            (3, Some(object)) => script.call(Call::Reallocate(quota as u32, object, near)),
            (4, _) => script.call(Call::Allocate(quota as u32, seed.between(1, 40))),
            _ => script.call(Call::Allocate(quota as u32, near)),
        };
    }
    script.text
}

/// Gives grants of which most are soon spent.
fn small_grants(seed: &mut Seed) -> [u32; QUOTAS] {
    std::array::from_fn(|_| match seed.below(4) {
        0 => seed.pick(&[0, 1, 8, 15, 16, 17, 24]),
        1 => 8 * seed.below(40),
        2 => seed.below(300),
        _ => seed.below(2_000),
    })
}

/// Claims an object up to a count of 255 and beyond, then releases it all or frees all.
fn full_counts(seed: &mut Seed) -> Vec<u8> {
    let mut script = Script::open_with(8 * seed.between(16, 100), 2_000);
    let object = script.call(Call::Allocate(0, seed.between(1, 60))).handle();
    script.call(Call::Allocate(1, 8));
    let (claimer, other) = (seed.below(3), seed.below(QUOTAS as u32));
    for _ in 0..seed.between(253, 257) {
        script.call(Call::Claim(claimer, object));
        if seed.percent(3) {
            script.call(Call::Claim(other, object));
        }
    }
    script.call(Call::Allocate(2, 16));
    if seed.percent(20) {
        script.call(Call::FreeAll(claimer));
    }
    for _ in 0..seed.between(250, 258) {
        script.call(Call::Release(claimer, object));
    }
    script.call(Call::Reallocate(claimer, object, 24));
    script.call(Call::FreeAll(other));
    script.call(Call::Release(0, object));
    script.text
}

/// Uses up the records, by many objects or by many holders, and goes on at the limit.
fn full_records(seed: &mut Seed) -> Vec<u8> {
    let quotas = QUOTAS as u32;
    let mut script = Script::open_with(8 * seed.between(1_200, 1_600), AMPLE);
    let objects = seed.pick(&[16, 17, 40, 200, HOLDS - 2, HOLDS]);
    for _ in 0..objects {
        script.call(Call::Allocate(seed.below(quotas), seed.between(1, 8)));
    }
    let habits = Habits {
        weights: SHARING,
        quotas,
        wild: 1,
        narrow: 20,
        longest: 8,
    };
    let live = script.live();
    let mut pairs: Vec<(u32, Handle)> = (0..quotas)
        .flat_map(|quota| live.iter().map(move |object| (quota, *object)))
        .collect();
    seed.shuffle(&mut pairs);
    for (quota, object) in pairs.into_iter().take(HOLDS + 4) {
        script.call(Call::Claim(quota, object));
    }
    for _ in 0..seed.between(10, 40) {
        script.call(Call::Allocate(seed.below(quotas), 8));
        script.choose(
            seed,
            &Habits {
                weights: REPLAYED,
                ..habits
            },
        );
    }
    script.text
}

/// Names objects that are gone, that never were, or that only look like objects.
fn forged_handles(seed: &mut Seed) -> Vec<u8> {
    let length = heap_length(seed);
    let mut script = Script::open_with(length, AMPLE);
    let longest = (length / 6).max(8);
    for _ in 0..seed.between(4, 14) {
        script.call(Call::Allocate(seed.below(3), seed.between(1, longest)));
    }
    for _ in 0..seed.between(20, 60) {
        let quota = seed.below(3);
        let view = View::new(&script.state.heap, &script.given_out);
        let handle = forged_handle(seed, &view);
        match seed.below(8) {
            0 => script.call(Call::Allocate(quota, seed.between(1, longest))),
            1 => match seed.any_of(&script.live()) {
                Some(object) => script.release(object),
                None => script.call(Call::FreeAll(quota)),
            },
            2 | 3 => script.call(Call::Claim(quota, handle)),
            4 => script.call(Call::Reallocate(quota, handle, seed.between(1, longest))),
            _ => script.call(Call::Release(quota, handle)),
        };
    }
    script.text
}

/// Asks for lengths on both sides of each row of the rounding table.
fn rounding_edges(seed: &mut Seed) -> Vec<u8> {
    let length = seed.pick(&[
        8_200, 8_208, 8_216, 16_384, 16_400, 24_600, 32_752, 32_760, 32_768,
    ]);
    let mut script = Script::open_with(length, seed.pick(&[AMPLE, AMPLE, 40_000, 32_776, 32_775]));
    for _ in 0..seed.between(10, 30) {
        let asked = seed.pick(&EDGES);
        let live = script.live();
        match (seed.below(5), seed.any_of(&live)) {
            (0 | 1, Some(object)) => script.release(object),
            (2, Some(object)) => script.call(Call::Reallocate(0, object, asked)),
            (3, _) => script.call(Call::Array(0, 1, asked)),
            _ => script.call(Call::Allocate(0, asked)),
        };
        if seed.percent(30) {
            script.call(Call::Allocate(0, seed.pick(&[1, 8, 24])));
        }
    }
    script.text
}

/// Multiplies counts and sizes whose product is 0, too long, or short only modulo 2^32.
fn array_products(seed: &mut Seed) -> Vec<u8> {
    let mut script = Script::open_with(heap_length(seed), AMPLE);
    for _ in 0..seed.between(10, 40) {
        let (count, size) = odd_product(seed);
        let quota = seed.pick(&[0, 7, 8, QUOTAS as u32 - 1, QUOTAS as u32]);
        script.call(Call::Array(quota, count, size));
        script.call(Call::Array(0, seed.between(1, 6), seed.between(1, 6)));
        if let Some(object) = seed.any_of(&script.live()) {
            script.release(object);
        }
    }
    script.text
}

/// Makes an input of 65,536 bytes, or of one more or one less, or one that does not end.
fn longest_input(seed: &mut Seed) -> Vec<u8> {
    let target = MAX_INPUT + seed.pick(&[0, 0, 0, 1]) - seed.pick(&[0, 0, 1]);
    let length = 8 * seed.between(16, 60);
    let mut script = Script::open(length, grants(seed));
    let habits = habits(seed, length);
    while script.text.len() + 100 < target {
        script.choose(seed, &habits);
    }
    let mut text = script.text;
    while text.len() < target {
        // `all ` and a line feed are 5 bytes; a last line has 1 to 10 digits for its quota.
        let left = target - text.len();
        let digits = if left <= 15 { left - 5 } else { 1 };
        text.extend_from_slice(format!("all {}\n", "9".repeat(digits)).as_bytes());
    }
    match seed.below(8) {
        0 => text[target - 1] = b'9',
        1 => text.extend(std::iter::repeat_n(b'a', seed.place(100_000))),
        _ => {}
    }
    text
}

/// Heap lengths on both sides of their limits.
const LENGTHS: [u32; 12] = [
    0,
    8,
    56,
    63,
    64,
    65,
    72,
    32_760,
    32_768,
    32_769,
    32_776,
    4_294_967_295,
];

/// What may stand behind a refused open, which ends a script whatever follows.
const BEHIND: [&str; 7] = [
    "",
    "alloc 0 1\n",
    "open 64\n",
    "alloc 0 1",
    "\n",
    " \n",
    "x",
];

/// Opens with lengths and grants on both sides of their limits.
fn openings(seed: &mut Seed) -> Vec<u8> {
    let length = match seed.below(4) {
        0 => seed.pick(&LENGTHS),
        1 => seed.odd_word(),
        2 => seed.between(48, 80),
        _ => heap_length(seed),
    };
    let grants = grants(seed);
    if !length.is_multiple_of(8) || !(64..=32_768).contains(&length) {
        return (open_line(length, grants) + seed.pick(&BEHIND)).into_bytes();
    }
    let mut script = Script::open(length, grants);
    let habits = habits(seed, length);
    for _ in 0..seed.below(12) {
        script.choose(seed, &habits);
    }
    script.text
}

/// Reallocates to longer, shorter and equal lengths, also objects that others hold.
fn reallocations(seed: &mut Seed) -> Vec<u8> {
    let length = heap_length(seed);
    let mut script = Script::open_with(length, seed.pick(&[AMPLE, length, length / 2]));
    let mut habits = habits(seed, length);
    habits.weights = [0, 14, 2, 12, 6, 1, 50, 0, 0, 0, 0, 0, 0, 0, 0];
    for _ in 0..seed.between(20, 80) {
        script.choose(seed, &habits);
    }
    script.text
}

/// Shares objects between quotas and drops all that one of them holds.
fn free_alls(seed: &mut Seed) -> Vec<u8> {
    let length = heap_length(seed);
    let mut script = Script::open_with(length, AMPLE);
    let mut habits = habits(seed, (length / 4).max(64));
    habits.quotas = seed.pick(&[2, 3, QUOTAS as u32]);
    habits.weights = [0, 40, 4, 30, 4, 0, 2, 0, 0, 0, 0, 0, 0, 0, 0];
    for _ in 0..seed.between(2, 8) {
        for _ in 0..seed.between(4, 16) {
            script.choose(seed, &habits);
        }
        script.call(Call::FreeAll(seed.below(habits.quotas)));
        let last = QUOTAS as u32 - 1;
        script.call(Call::FreeAll(seed.pick(&[last, last + 1, u32::MAX])));
    }
    script.text
}

/// Makes any calls.
fn mixed(seed: &mut Seed) -> Vec<u8> {
    let length = heap_length(seed);
    let mut script = Script::open(length, grants(seed));
    let mut habits = habits(seed, length);
    for _ in 0..seed.between(10, 150) {
        if seed.percent(4) {
            habits.weights = seed.pick(&[REPLAYED, GROWING, SHARING]);
        }
        script.choose(seed, &habits);
    }
    script.text
}
