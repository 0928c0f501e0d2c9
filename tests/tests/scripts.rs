//! Generated scripts from fixed seeds through both replay programs.
//!
//! Each test also checks that its scripts reached what they are for, by the lines printed.

use std::sync::OnceLock;

use lokhazim_tests::cases::malformed::{make, KINDS};
use lokhazim_tests::cases::themes::THEMES;
use lokhazim_tests::judge::tally::Tally;
use lokhazim_tests::run::programs::{Feed, Programs};
use lokhazim_tests::run::rounds;
use lokhazim_tests::seed::Seed;

/// The seed of every generated script in the gate.
const SEED: u64 = 20_260_101;

/// How many scripts of each kind of malformed input are compared.
const MALFORMED: u64 = 12;

/// What the gate runs: a theme, how many scripts, and how often lines must at least be printed.
type Part = (&'static str, u64, &'static [(&'static str, u64)]);

/// The themes of the gate. The malformed inputs have a test of their own.
const PARTS: [Part; 14] = [
    ("near-full", 180, &[("ok", 5_000), ("no 11", 2_000)]),
    ("fragmented", 180, &[("ok", 10_000), ("no 11", 1_000)]),
    ("spent-quotas", 180, &[("ok", 1_000), ("no 8", 1_000)]),
    ("full-counts", 80, &[("ok", 20_000), ("no 7", 30)]),
    ("full-records", 60, &[("ok", 5_000), ("no 9", 500)]),
    (
        "forged-handles",
        180,
        &[("ok", 1_000), ("no 5", 1_000), ("no 6", 100)],
    ),
    (
        "narrowed-handles",
        180,
        &[("ok", 1_000), ("no 5", 1_000), ("no 6", 100)],
    ),
    (
        "rounding-edges",
        180,
        &[("ok", 1_000), ("no 4", 100), ("no 8", 50), ("no 11", 200)],
    ),
    (
        "array-products",
        180,
        &[("ok", 1_000), ("no 3", 100), ("no 4", 500)],
    ),
    ("longest-input", 32, &[("ok", 10_000), ("bad", 4)]),
    ("openings", 220, &[("ok", 200), ("no 1", 40)]),
    (
        "reallocations",
        180,
        &[("ok", 1_000), ("no 6", 20), ("no 11", 200)],
    ),
    ("free-alls", 180, &[("ok", 1_000), ("no 3", 50)]),
    (
        "mixed",
        260,
        &[("ok", 5_000), ("no 3", 100), ("no 4", 100), ("no 5", 500)],
    ),
];

/// How many scripts the themes and the malformed inputs together compare at least.
const ALL_SCRIPTS: u64 = 2_000;

/// What was compared of a theme, and all that was printed.
struct Compared {
    tally: Tally,
    printed: String,
}

/// What was compared of each theme, once a test has asked for it.
static COMPARED: [OnceLock<Compared>; PARTS.len()] = [const { OnceLock::new() }; PARTS.len()];

/// How many malformed inputs were compared, once a test has asked for it.
static MALFORMED_COMPARED: OnceLock<u64> = OnceLock::new();

/// Compares every script of a theme, unless that was done, and checks what was printed.
fn compare_theme(name: &str) -> &'static Compared {
    let mut parts = PARTS.iter().zip(&COMPARED);
    let ((_, count, least), compared) = parts.find(|part| part.0 .0 == name).expect("a part");
    let compared = compared.get_or_init(|| run_theme(name, *count));
    assert_eq!(compared.tally.scripts, *count);
    for (text, n) in least.iter() {
        let lines = compared.tally.lines_of(text);
        assert!(lines >= *n, "too few lines '{text}'");
    }
    compared
}

/// Compares so many scripts of a theme.
fn run_theme(name: &str, count: u64) -> Compared {
    let programs = Programs::find().unwrap_or_else(|failure| panic!("{failure}"));
    let mut themes = THEMES.iter();
    let theme = themes.find(|theme| theme.name == name).expect("a theme");
    let (mut tally, mut printed) = (Tally::default(), Vec::new());
    for n in 0..count {
        let compared = rounds::script(&programs, &mut tally, theme, SEED, n);
        printed.extend(compared.unwrap_or_else(|failure| panic!("{failure}")));
    }
    println!("{name}: {tally}");
    let printed = String::from_utf8_lossy(&printed).into_owned();
    Compared { tally, printed }
}

/// Makes one test of each theme.
macro_rules! themes {
    ($($test:ident $name:literal)*) => {
        $(
            #[test]
            fn $test() {
                compare_theme($name);
            }
        )*

        /// The names of the themes that have a test.
        const TESTED: &[&str] = &[$($name),*];
    };
}

themes! {
    near_full_heaps "near-full"
    heavy_fragmentation "fragmented"
    spent_quotas "spent-quotas"
    counts_up_to_255 "full-counts"
    full_hold_tables "full-records"
    stale_and_forged_handles "forged-handles"
    parts_of_objects "narrowed-handles"
    array_overflow "array-products"
    the_longest_input "longest-input"
    heap_lengths_and_grants "openings"
    reallocations "reallocations"
    free_alls "free-alls"
    any_calls "mixed"
}

#[test]
fn both_sides_of_every_row_of_the_rounding_table() {
    let printed = &compare_theme("rounding-edges").printed;
    let answered = |base: u32, length: u32| {
        let mut lines = printed.lines().filter(|line| line.starts_with("ok "));
        lines.any(|line| line.starts_with(&format!("ok {base} {length} ")))
    };
    // The lowest base and the object's length for requests at the edges of each row.
    for length in [8, 16, 24, 8_176, 8_184] {
        assert!(answered(8, length), "unit 8, length {length}");
    }
    for length in [8_192, 8_208, 8_224, 16_368] {
        assert!(answered(16, length), "unit 16, length {length}");
    }
    for length in [16_384, 16_416, 32_736] {
        assert!(answered(32, length), "unit 32, length {length}");
    }
    // None at the base that the unit of the request would allow.
    assert!(!answered(8, 8_192) && !answered(16, 16_384));
}

#[test]
fn at_least_2000_scripts_were_compared_and_every_theme_is_tested() {
    let scripts = |part: &Part| compare_theme(part.0).tally.scripts;
    let compared: u64 = PARTS.iter().map(scripts).sum::<u64>() + malformed_compared();
    assert!(compared >= ALL_SCRIPTS, "only {compared} scripts");
    let of_their_own = ["rounding-edges", "malformed"];
    let tested = |name: &str| TESTED.contains(&name) || of_their_own.contains(&name);
    assert!(THEMES.iter().all(|theme| tested(theme.name)));
}

#[test]
fn every_kind_of_malformed_line() {
    assert_eq!(malformed_compared(), MALFORMED * KINDS.len() as u64);
}

/// Compares inputs of every kind of malformed line, unless that was done, and counts them.
fn malformed_compared() -> u64 {
    *MALFORMED_COMPARED.get_or_init(|| {
        let programs = Programs::find().unwrap_or_else(|failure| panic!("{failure}"));
        let mut compared = 0;
        for place in 0..KINDS.len() {
            for n in 0..MALFORMED {
                compare_malformed(&programs, place, n);
                compared += 1;
            }
        }
        compared
    })
}

/// Compares one malformed input: it is answered up to the malformed line, and then by `bad`.
fn compare_malformed(programs: &Programs, place: usize, n: u64) {
    let kind = KINDS[place].name;
    let case = place as u64 * MALFORMED + n;
    let malformed = make(&mut Seed::of_case(SEED, case), place);
    let name = format!("malformed-seed-{SEED}-case-{case}");
    let output = programs
        .compare(&name, &malformed.input, Feed::Whole)
        .unwrap_or_else(|failure| panic!("{kind}: {failure}"));
    let text = String::from_utf8_lossy(&output).into_owned();
    assert!(text.ends_with("bad\n"), "{kind}: {text}");
    assert_eq!(
        text.lines().count(),
        malformed.answered + 1,
        "{kind}: {text}"
    );
    assert_eq!(text.matches("bad").count(), 1, "{kind}: {text}");
}
