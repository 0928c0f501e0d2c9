//! Lists of releases, each made in two orders by both programs: what is accepted in one order is so
//! in the other and leaves the same, and a quota's releases come to its free-all.

use lokhazim_reference::{Accounts, Handle, QUOTAS};

use crate::cases::choice::choice;
use crate::cases::states::{heap_length, sound};
use crate::judge::compare::Failure;
use crate::judge::cut::live_handles;
use crate::judge::ledger::{Ledger, Object};
use crate::run::calls::Pair;
use crate::seed::Seed;
use crate::state::{Answer, Call, State};

/// How many releases a list has at most.
const LONGEST: u32 = 120;

/// One release of a list.
#[derive(Clone, Copy, Debug, PartialEq, Eq)]
struct Release {
    quota: u32,
    handle: Handle,
}

/// What a list of releases left, and the answers with the quotas they were given to.
struct Cleaned {
    state: State,
    answers: Vec<(u32, Answer)>,
}

impl Cleaned {
    /// Tells whether every release was accepted.
    fn is_accepted(&self) -> bool {
        self.answers.iter().all(|(_, answer)| answer.is_accepted())
    }

    /// Gives the answers of each quota in rising order.
    fn sorted(&self) -> Vec<(u32, u32, u64)> {
        let numbers = |(quota, answer): &(u32, Answer)| (*quota, answer.refusal, answer.numbers[0]);
        let mut all: Vec<_> = self.answers.iter().map(numbers).collect();
        all.sort_unstable();
        all
    }

    /// Gives the sum of the answers.
    fn sum(&self) -> u64 {
        self.answers.iter().map(|(_, a)| a.numbers[0]).sum()
    }
}

/// Makes the lists of the n-th case of a seed: holds of all quotas, a list with a release that is
/// refused, and every hold of one quota.
pub fn lists(pair: &mut Pair, seed: u64, n: u64) -> Result<(), Failure> {
    pair.begin("cleanup", seed, n);
    let mut numbers = Seed::of_case(seed, n);
    let state = match n % 3 {
        0 => grown(pair, &mut numbers)?,
        _ => sound(&mut numbers),
    };
    let objects = Ledger::read_off(&state).objects;
    let some = some_holds(&mut numbers, &objects);
    in_two_orders(pair, &mut numbers, &state, some.clone())?;
    let mut refused = some;
    refused.extend(refused_releases(&mut numbers, &objects));
    in_two_orders(pair, &mut numbers, &state, refused)?;
    let quota = numbers.below(QUOTAS as u32);
    let all = holds_of(&mut numbers, &objects, quota);
    if all.len() <= LONGEST as usize {
        as_free_all(pair, &mut numbers, &state, quota, all)?;
    }
    Ok(())
}

/// Makes a state by calls: an opening, some objects, and claims on them.
fn grown(pair: &mut Pair, seed: &mut Seed) -> Result<State, Failure> {
    let mut state = State {
        heap: vec![0; heap_length(seed) as usize],
        accounts: Accounts::default(),
    };
    state.heap.fill_with(|| seed.byte());
    pair.call(&mut state, Call::Open([100_000; QUOTAS], choice(seed)))?;
    let longest = seed.pick(&[8, 40, 200]);
    for _ in 0..seed.between(2, 40) {
        let length = seed.between(1, longest);
        pair.call(
            &mut state,
            Call::Allocate(seed.below(QUOTAS as u32), length),
        )?;
    }
    for _ in 0..seed.below(40) {
        if let Some(handle) = seed.any_of(&live_handles(&state.heap)) {
            pair.call(&mut state, Call::Claim(seed.below(QUOTAS as u32), handle))?;
        }
    }
    Ok(state)
}

/// Chooses holds to release, of each record none, some or all.
fn some_holds(seed: &mut Seed, objects: &[Object]) -> Vec<Release> {
    let share = seed.pick(&[30, 70, 100]);
    let mut list = Vec::new();
    for object in objects {
        for (quota, count) in (0..).zip(object.holds) {
            let times = match seed.percent(share) {
                true => count.min(seed.pick(&[1, 2, 5, LONGEST])),
                false => 0,
            };
            for _ in 0..times {
                let handle = part_of(seed, object.handle);
                list.push(Release { quota, handle });
            }
        }
    }
    seed.shuffle(&mut list);
    list.truncate(LONGEST as usize);
    list
}

/// Gives every hold of a quota as a release.
fn holds_of(seed: &mut Seed, objects: &[Object], quota: u32) -> Vec<Release> {
    let mut list = Vec::new();
    for object in objects {
        for _ in 0..object.holds[quota as usize] {
            let handle = part_of(seed, object.handle);
            list.push(Release { quota, handle });
        }
    }
    list
}

/// Gives a handle of the object, now and then one with a narrowed range.
fn part_of(seed: &mut Seed, object: Handle) -> Handle {
    if seed.percent(70) {
        return object;
    }
    let skipped = seed.below(object.length);
    Handle {
        base: object.base + skipped,
        length: seed.between(1, object.length - skipped),
        ..object
    }
}

/// Makes releases of which one is refused in every order: of a quota that does not hold the object
/// or does not exist, with a handle that names nothing, or one more than the quota's holds.
fn refused_releases(seed: &mut Seed, objects: &[Object]) -> Vec<Release> {
    let nothing = Handle {
        base: 8,
        length: 8,
        serial: 0,
    };
    let Some(place) = (!objects.is_empty()).then(|| seed.place(objects.len())) else {
        return vec![Release {
            quota: seed.below(QUOTAS as u32),
            handle: nothing,
        }];
    };
    let Object { handle, holds } = &objects[place];
    let (quota, handle) = match seed.below(6) {
        0 => (seed.below(QUOTAS as u32), nothing),
        1 => (seed.between(QUOTAS as u32, 40), *handle),
        _ => (seed.below(QUOTAS as u32), *handle),
    };
    let held = holds.get(quota as usize).copied().unwrap_or(0);
    (0..=held).map(|_| Release { quota, handle }).collect()
}

/// Makes a list of releases, each on what the one before it left.
fn cleaned(pair: &mut Pair, state: &State, list: &[Release]) -> Result<Cleaned, Failure> {
    let mut state = state.clone();
    let mut answers = Vec::new();
    for release in list {
        let call = Call::Release(release.quota, release.handle);
        answers.push((release.quota, pair.call(&mut state, call)?));
    }
    Ok(Cleaned { state, answers })
}

/// Says what is wrong with a list.
fn wrong(pair: &Pair, what: &str, one: &[Release], other: &[Release]) -> Failure {
    Failure(format!("{}: {what}: {one:?} and {other:?}", pair.origin))
}

/// Makes a list in two orders and compares what they have in common.
fn in_two_orders(
    pair: &mut Pair,
    seed: &mut Seed,
    state: &State,
    list: Vec<Release>,
) -> Result<(), Failure> {
    let (mut one, mut other) = (list.clone(), list);
    seed.shuffle(&mut one);
    seed.shuffle(&mut other);
    let first = cleaned(pair, state, &one)?;
    let second = cleaned(pair, state, &other)?;
    if first.is_accepted() != second.is_accepted() {
        return Err(wrong(pair, "accepted in one order only", &one, &other));
    }
    if !first.is_accepted() {
        pair.tally.count_case("a list with a refused release");
        return Ok(());
    }
    if first.state != second.state {
        return Err(wrong(pair, "two orders leave two states", &one, &other));
    }
    if first.sorted() != second.sorted() {
        return Err(wrong(pair, "a quota gets other answers", &one, &other));
    }
    pair.tally.count_case(match state.accounts.kind {
        0 => "a list in two orders",
        _ => "a list in two orders, with quarantine",
    });
    pair.call(&mut first.state.clone(), Call::Sweep)?;
    if first.answers != second.answers {
        pair.tally.count_case("answers in another order");
    }
    Ok(())
}

/// Makes every release of a quota in two orders, and compares with its free-all where the quota is
/// permitted that.
fn as_free_all(
    pair: &mut Pair,
    seed: &mut Seed,
    state: &State,
    quota: u32,
    list: Vec<Release>,
) -> Result<(), Failure> {
    in_two_orders(pair, seed, state, list.clone())?;
    let one_by_one = cleaned(pair, state, &list)?;
    let mut freed = state.clone();
    let answer = pair.call(&mut freed, Call::FreeAll(quota))?;
    if answer.refusal == 12 {
        pair.tally.count_case("a free-all that is not permitted");
        return Ok(());
    }
    let same = one_by_one.is_accepted() && one_by_one.state == freed;
    if !same || answer != Answer::accepted(&[one_by_one.sum()]) {
        return Err(wrong(pair, "free-all does otherwise", &list, &[]));
    }
    pair.tally.count_case("a quota's releases and its free-all");
    Ok(())
}
