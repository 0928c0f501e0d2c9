//! Generated calls from fixed seeds through the exported boundary and the reference.
//!
//! Each test also checks that its calls reached what they are for.

use std::sync::OnceLock;

use lokhazim_reference::HOLDS;
use lokhazim_tests::cases::damage::DAMAGES;
use lokhazim_tests::judge::compare::Failure;
use lokhazim_tests::judge::tally::Tally;
use lokhazim_tests::run::calls::Pair;
use lokhazim_tests::run::histories::{self, Beginning};
use lokhazim_tests::run::unsound;
use lokhazim_tests::state::Call;

/// The seed of every generated call in the gate.
const SEED: u64 = 20_260_102;

/// How many calls all parts together compare at least.
const ALL_CALLS: u64 = 200_000;

/// How many states each kind of damage is at least done to.
const DAMAGED: u64 = 75;

/// Makes the case with a number and compares its calls.
type Case = fn(&mut Pair, u64) -> Result<(), Failure>;

/// Cases of one kind, compared once, whichever test asks first.
struct Part {
    /// How many calls are compared at least.
    least: u64,
    /// The number of the first case.
    first: u64,
    /// The cases.
    case: Case,
    /// What was compared, counted call by call.
    compared: OnceLock<Tally>,
}

impl Part {
    /// Starts with nothing compared.
    const fn new(least: u64, first: u64, case: Case) -> Part {
        Part {
            least,
            first,
            case,
            compared: OnceLock::new(),
        }
    }

    /// Compares cases until so many calls were compared, unless that was done, and gives what was.
    fn tally(&self) -> &Tally {
        self.compared.get_or_init(|| {
            let mut pair = Pair::new();
            let mut n = self.first;
            while pair.tally.all_calls() < self.least {
                (self.case)(&mut pair, n).unwrap_or_else(|failure| panic!("{failure}"));
                n += 1;
            }
            println!("{}", pair.tally);
            pair.tally
        })
    }
}

static HISTORIES: Part = Part::new(60_000, 0, history);
static MORE_HISTORIES: Part = Part::new(60_000, 1_000_000, history);
static LONG: Part = Part::new(30_000, 0, |pair, n| {
    histories::run(pair, Beginning::Long, SEED, n, 250)
});
static SOUND_STATES: Part = Part::new(100_000, 0, |pair, n| {
    histories::run(pair, Beginning::SoundState, SEED, n, 40)
});
static ALONE: Part = Part::new(74_000, 0, |pair, n| {
    let kind = (n % DAMAGES.len() as u64) as usize;
    unsound::alone(pair, &DAMAGES[kind], SEED, n)
});
static TOGETHER: Part = Part::new(20_000, 0, |pair, n| unsound::together(pair, SEED, n));
static NOISE: Part = Part::new(40_000, 0, |pair, n| unsound::noise(pair, SEED, n));
static LENGTHS: Part = Part::new(10_000, 0, |pair, n| unsound::lengths(pair, SEED, n));

/// Every part.
static PARTS: [&Part; 8] = [
    &HISTORIES,
    &MORE_HISTORIES,
    &LONG,
    &SOUND_STATES,
    &ALONE,
    &TOGETHER,
    &NOISE,
    &LENGTHS,
];

/// Makes an undamaged history from an opening, every eighth with a full table of records.
fn history(pair: &mut Pair, n: u64) -> Result<(), Failure> {
    let crowded = n.is_multiple_of(8);
    let beginning = if crowded {
        Beginning::Crowd
    } else {
        Beginning::Opening
    };
    histories::run(pair, beginning, SEED, n, 250)
}

/// Checks that the calls were refused by these numbers at least so often.
fn reached(tally: &Tally, numbers: &[usize], least: u64) {
    for number in numbers {
        assert!(
            tally.refused(*number) >= least,
            "too few refusals by {number}"
        );
    }
}

/// Checks that every call but open was accepted at least so often.
fn all_accepted(tally: &Tally, least: u64) {
    for (name, row) in Call::NAMES.iter().zip(&tally.calls).skip(1) {
        assert!(row[0] >= least, "too few accepted calls of {name}");
    }
}

/// The calls that need a permission.
const GUARDED: [&str; 5] = ["allocate", "array", "claim", "free-all", "reallocate"];

/// Checks that each call that needs a permission was refused for lack of it at least so often, and
/// no other call was.
fn all_barred(tally: &Tally, least: u64) {
    for name in Call::NAMES {
        let barred = tally.refused_of(name, 12);
        match GUARDED.contains(&name) {
            true => assert!(
                barred >= least,
                "too few refusals by 12 of {name}: {barred}"
            ),
            false => assert_eq!(barred, 0, "{name} needs no permission"),
        }
    }
}

/// The calls that take a handle of a part as well as the whole one.
const BY_PARTS: [&str; 5] = ["claim", "release", "lend", "write", "can-release"];

/// Checks that each of these calls was accepted with a narrowed handle at least so often, and that
/// reallocate was refused by 5 half as often and never came to a later line.
fn all_narrowed(tally: &Tally, least: u64) {
    for name in BY_PARTS {
        let accepted = tally.narrowed_of(name, 0);
        assert!(accepted >= least, "too few parts in {name}: {accepted}");
    }
    let refused = tally.narrowed_of("reallocate", 5);
    assert!(
        2 * refused >= least,
        "too few parts in reallocate: {refused}"
    );
    for later in [0, 6, 7, 8, 9, 10, 11] {
        assert_eq!(tally.narrowed_of("reallocate", later), 0, "{later}");
    }
}

/// Checks what undamaged histories from an opening reach.
fn histories_reach(tally: &Tally) {
    all_barred(tally, 50);
    all_narrowed(tally, 150);
    assert!(tally.wide_tables >= 2_000 && tally.high_quotas >= 2_000);
    reached(tally, &[3, 4, 6, 7, 9], 20);
    reached(tally, &[5, 8, 11], 500);
    all_accepted(tally, 100);
    assert!(
        2 * tally.refused(0) > tally.all_calls(),
        "most calls are accepted"
    );
    assert!(
        tally
            .joined_front
            .min(tally.joined_behind)
            .min(tally.joined_both)
            >= 200
    );
    assert!(tally.full_counts >= 500 && tally.full_tables >= 100 && tally.look_alikes >= 50);
    assert!(tally.waited >= 8_000 && tally.swept >= 300);
    assert!(tally.second >= 20_000, "{}", tally.second);
}

#[test]
fn undamaged_histories_and_the_ledger() {
    histories_reach(HISTORIES.tally());
}

#[test]
fn more_undamaged_histories_and_the_ledger() {
    histories_reach(MORE_HISTORIES.tally());
}

#[test]
fn histories_with_long_objects_and_the_ledger() {
    let tally = LONG.tally();
    all_barred(tally, 10);
    reached(tally, &[3, 4, 6], 20);
    reached(tally, &[5, 11], 500);
    all_accepted(tally, 20);
    let joined = [tally.joined_front, tally.joined_behind, tally.joined_both];
    assert!(joined.into_iter().all(|count| count >= 50), "{joined:?}");
    assert!(tally.waited >= 2_000 && tally.swept >= 100);
    let (second, wider) = (tally.second, tally.wider);
    assert!(second >= 10_000 && wider >= 300, "{second} {wider}");
}

#[test]
fn sound_states_that_no_replay_reaches_and_the_ledger() {
    let tally = SOUND_STATES.tally();
    all_barred(tally, 50);
    all_narrowed(tally, 300);
    assert!(tally.wide_tables >= 5_000 && tally.high_quotas >= 5_000);
    reached(tally, &[3, 4, 6, 7, 9], 100);
    reached(tally, &[5, 8, 10, 11], 500);
    all_accepted(tally, 20);
    assert!(
        2 * tally.refused(0) > tally.all_calls(),
        "most calls are accepted"
    );
    assert!(
        tally
            .joined_front
            .min(tally.joined_behind)
            .min(tally.joined_both)
            >= 200
    );
    assert!(tally.full_counts >= 5_000 && tally.full_tables >= 1_000 && tally.look_alikes >= 500);
    assert!(tally.waited >= 8_000 && tally.swept >= 200);
    assert!(tally.most_waiting > HOLDS, "{}", tally.most_waiting);
    assert!(tally.second >= 25_000, "{}", tally.second);
}

#[test]
fn each_sentence_of_sound_broken_alone() {
    let tally = ALONE.tally();
    for damage in &DAMAGES {
        let states = tally.cases.get(damage.name).copied().unwrap_or(0);
        assert!(states >= DAMAGED, "{}: {states} states", damage.name);
    }
    let refused: u64 = tally.refused(2);
    assert_eq!(
        refused + tally.calls[0][0],
        tally.all_calls(),
        "all but open give 2"
    );
}

#[test]
fn sentences_of_sound_broken_together() {
    let tally = TOGETHER.tally();
    let refused: u64 = tally.refused(2);
    assert_eq!(
        refused + tally.calls[0][0],
        tally.all_calls(),
        "all but open give 2"
    );
}

#[test]
fn any_bytes_and_any_numbers() {
    let tally = NOISE.tally();
    assert!(tally.refused(0) >= 3_000 && tally.refused(2) >= 3_000);
}

#[test]
fn heaps_of_any_length() {
    let tally = LENGTHS.tally();
    reached(tally, &[1], 3_000);
    assert!(tally.refused(0) >= 500);
}

#[test]
fn at_least_200000_calls_were_compared() {
    let compared: u64 = PARTS.iter().map(|part| part.tally().all_calls()).sum();
    println!("calls compared in all parts: {compared}");
    assert!(compared >= ALL_CALLS, "only {compared} calls were compared");
}
