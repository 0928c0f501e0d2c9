//! The statistics of a heap and of a quota (rules, section 25): the proved code and the reference give the same, and each number is what its rule says.

use lokhazim_reference::{
    allocate, claim, open_with, quota_statistics, release, statistics, sweep, Accounts, BlockCount,
    Edition, Handle, Kind, Options, Refusal, Statistics, HOLDS, QUOTAS,
};
use lokhazim_tests::cases::damage::{damaged_alone, damaged_together, DAMAGES};
use lokhazim_tests::cases::states::sound;
use lokhazim_tests::run::boundary::statistics as proved;
use lokhazim_tests::seed::Seed;
use lokhazim_tests::state::State;

/// The seed of every case.
const SEED: u64 = 25;

/// An answer as the boundary gives it: the refusal's number with zeros, or the statistics.
fn numbered<T: Default>(answer: Result<T, Refusal>) -> (u32, T) {
    match answer {
        Ok(told) => (0, told),
        Err(refusal) => (refusal.number().into(), T::default()),
    }
}

/// Asks both for the statistics of a state and of every quota, and of numbers that no quota has. Gives
/// the statistics.
fn both(state: &State) -> (u32, Statistics) {
    let (heap, accounts) = (&state.heap, &state.accounts);
    let told = numbered(statistics(heap, accounts));
    assert_eq!(proved::statistics(heap, accounts), told);
    for quota in (0..=QUOTAS as u32).chain([255, 256, u32::MAX]) {
        let wanted = numbered(quota_statistics(heap, accounts, quota));
        assert_eq!(
            proved::quota_statistics(heap, accounts, quota),
            wanted,
            "{quota}"
        );
    }
    told
}

#[test]
fn sound_states_have_the_same_statistics() {
    let mut shared = 0;
    for n in 0..600 {
        let state = sound(&mut Seed::of_case(SEED, n));
        let (refusal, told) = both(&state);
        assert_eq!(refusal, 0);
        let bytes = told.free.bytes + told.live.bytes + told.quarantined.bytes;
        assert_eq!(bytes, state.heap.len());
        let quotas: Vec<_> = (0..QUOTAS as u32)
            .filter_map(|quota| quota_statistics(&state.heap, &state.accounts, quota).ok())
            .collect();
        let objects: usize = quotas.iter().map(|told| told.objects).sum();
        assert_eq!(objects, told.records);
        shared += u32::from(quotas.iter().any(|told| told.shared > 0));
    }
    assert!(shared >= 100, "{shared}");
}

/// Makes a call on a state: mostly allocations, else a claim, a release or a sweep.
fn step(seed: &mut Seed, state: &mut State, live: &mut Vec<(u32, Handle)>) {
    let (heap, accounts) = (&mut state.heap, &mut state.accounts);
    let quota = seed.below(4);
    match (seed.below(10), live.len()) {
        (0..=4, _) | (_, 0) => {
            let length = 1 + seed.below(heap.len() as u32 / 4);
            if let Ok(handle) = allocate(heap, accounts, quota, length) {
                live.push((quota, handle));
            }
        }
        (5, count) => {
            let handle = live[seed.place(count)].1;
            if claim(heap, accounts, quota, handle).is_ok() {
                live.push((quota, handle));
            }
        }
        (6, _) => drop(sweep(heap, accounts)),
        (_, count) => {
            let (holder, handle) = live.swap_remove(seed.place(count));
            release(heap, accounts, holder, handle).expect("the quota holds the object");
        }
    }
}

#[test]
fn histories_have_the_same_statistics_at_every_point() {
    let (mut waiting, mut scattered, mut full) = (0, 0, 0);
    let mut reached = [0; 4];
    for n in 0..40 {
        let mut seed = Seed::of_case(SEED + 3, n);
        let length = seed.pick(&[64, 256, 1_024, 9_000, 32_768]);
        let mut state = fresh(length, options()[n as usize % 4]);
        let mut live = Vec::new();
        for _ in 0..60 {
            step(&mut seed, &mut state, &mut live);
            let (refusal, told) = both(&state);
            assert_eq!(refusal, 0);
            waiting += u32::from(told.quarantined.blocks > 0);
            scattered += u32::from(told.fragmented > 0);
            full += u32::from(told.free.blocks == 0);
            for (count, largest) in reached.iter_mut().zip(told.largest) {
                *count += u32::from(largest > 0);
            }
        }
    }
    let counts = [waiting, scattered, full];
    assert!(counts.iter().all(|count| *count >= 20), "{counts:?}");
    assert!(reached.iter().all(|count| *count >= 5), "{reached:?}");
}

#[test]
fn damaged_states_are_refused_alike() {
    let mut refused = 0;
    for (n, damage) in (0..).zip(&DAMAGES) {
        for k in 0..4 {
            let mut seed = Seed::of_case(SEED + 1, 10 * n + k);
            if let Some(state) = damaged_alone(&mut seed, damage) {
                assert_eq!(both(&state), (2, Statistics::default()), "{}", damage.name);
                refused += 1;
            }
        }
    }
    for n in 0..200 {
        if let Some(state) = damaged_together(&mut Seed::of_case(SEED + 2, n)) {
            let (refusal, told) = both(&state);
            assert_ne!(refusal, 0);
            assert_eq!(told, Statistics::default());
            refused += 1;
        }
    }
    assert!(refused >= 150, "{refused}");
}

#[test]
fn lengths_that_no_heap_has_are_refused() {
    for length in [0, 8, 56, 60, 63, 65, 32_769, 32_776, 40_000] {
        let state = State {
            heap: vec![0; length],
            accounts: Accounts::default(),
        };
        assert_eq!(both(&state), (1, Statistics::default()), "{length}");
    }
}

/// A free heap of a length, of these options.
fn fresh(length: usize, options: Options) -> State {
    let mut heap = vec![0; length];
    let (accounts, opened) = open_with(&mut heap, [40_000; QUOTAS], options);
    assert_eq!(opened, Ok(()), "{length}");
    State { heap, accounts }
}

/// The options of both kinds and both editions.
fn options() -> [Options; 4] {
    let of = |kind, edition| Options { kind, edition };
    [
        of(Kind::Plain, Edition::First),
        of(Kind::Quarantine, Edition::First),
        of(Kind::Plain, Edition::Second),
        of(Kind::Quarantine, Edition::Second),
    ]
}

#[test]
fn the_longest_request_is_the_last_that_has_a_base() {
    let limits = [
        64, 72, 4_096, 4_104, 4_112, 4_120, 8_192, 8_200, 8_208, 8_216, 16_384, 16_400, 16_408,
        16_416, 16_448, 32_752, 32_760, 32_768,
    ];
    for options in [options()[0], options()[2]] {
        for length in limits {
            let state = fresh(length, options);
            let (_, told) = both(&state);
            assert_eq!(
                told.free,
                BlockCount {
                    blocks: 1,
                    bytes: length
                }
            );
            assert_eq!((told.largest_free, told.fragmented), (length, 0));
            for request in 1..=length as u32 {
                let Ok(rounded) = options.edition.round(u64::from(request)) else {
                    continue;
                };
                let place = [8, 16, 32, 64]
                    .iter()
                    .position(|unit| *unit == rounded.alignment);
                let within = place.is_some_and(|place| request as usize <= told.largest[place]);
                if request % 8 > 1 {
                    continue;
                }
                let mut after = state.clone();
                let got = allocate(&mut after.heap, &mut after.accounts, 0, request);
                assert_eq!(got.is_ok(), within, "{request} of {length}");
                assert!(
                    within || got == Err(Refusal::NoSpace),
                    "{request} of {length}"
                );
            }
        }
    }
}

#[test]
fn records_are_counted_to_the_last() {
    let mut state = fresh(32_768, options()[0]);
    for count in 1..=HOLDS {
        let made = allocate(&mut state.heap, &mut state.accounts, count as u32 % 32, 8);
        assert!(made.is_ok(), "{count}");
        if count % 64 == 0 {
            let (_, told) = both(&state);
            assert_eq!((told.records, told.live.blocks), (count, count));
            assert_eq!(told.last_serial, count as u32);
        }
    }
}
