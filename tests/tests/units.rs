//! States of both editions in which an object fits its unit or does not, on both sides of the rule
//! (5.10): the proved code, the reference and the harness's own reading judge them alike.

use lokhazim_tests::cases::states::Plan;
use lokhazim_tests::judge::rules::{broken, Sentence};
use lokhazim_tests::run::calls::Pair;
use lokhazim_tests::run::unsound::check_is_the_judges;
use lokhazim_tests::seed::Seed;
use lokhazim_tests::state::State;

/// The heap of every state here.
const LENGTH: u32 = 32_768;

/// Makes the state of an edition with one object of this length at this base.
fn state(edition: u8, base: u32, length: u32) -> State {
    let plan = Plan {
        edition,
        ..Plan::of_object(LENGTH, base, length)
    };
    plan.render(&mut Seed::of_case(u64::from(base), u64::from(length)))
}

/// Makes the check of a state and holds it to the harness's own reading.
fn judged_alike(pair: &mut Pair, state: &State) {
    check_is_the_judges(pair, state).unwrap_or_else(|failure| panic!("{failure}"));
}

/// Judges states of an edition: base and length of the object, and whether it fits.
fn judged(edition: u8, rows: &[(u32, u32, bool)]) {
    let mut pair = Pair::new();
    for (base, length, accepted) in rows {
        let state = state(edition, *base, *length);
        let wanted: &[Sentence] = if *accepted { &[] } else { &[Sentence::Units] };
        assert_eq!(broken(&state), wanted, "{length} at {base}");
        judged_alike(&mut pair, &state);
    }
    let fit = rows.iter().filter(|(.., accepted)| *accepted).count() as u64;
    let refused = (pair.tally.refused(0), pair.tally.refused(2));
    assert_eq!(refused, (fit, rows.len() as u64 - fit));
}

#[test]
fn objects_on_both_sides_of_the_rule() {
    let rows = [
        (8, 8_184, true),
        (8, 8_192, false),
        (16, 8_192, true),
        (24, 8_192, false),
        (16, 8_200, false),
        (16, 8_208, true),
        (16, 16_368, true),
        (16, 16_376, false),
        (8, 16_384, false),
        (16, 16_384, false),
        (32, 16_384, true),
        (48, 16_384, false),
        (64, 16_384, true),
        (32, 16_400, false),
        (32, 16_416, true),
        (16, 32_736, false),
        (32, 32_736, true),
        (16, 32_752, false),
        (8, 32_760, false),
    ];
    judged(0, &rows);
}

#[test]
fn objects_on_both_sides_of_the_rule_in_the_second_edition() {
    let rows = [
        (8, 4_088, true),
        (8, 4_096, false),
        (16, 4_096, true),
        (24, 4_096, false),
        (16, 4_104, false),
        (16, 4_112, true),
        (16, 8_176, true),
        (24, 8_176, false),
        (16, 8_184, false),
        (16, 8_192, false),
        (32, 8_192, true),
        (48, 8_192, false),
        (32, 8_208, false),
        (32, 16_352, true),
        (48, 16_352, false),
        (32, 16_384, false),
        (64, 16_384, true),
        (96, 16_384, false),
        (128, 16_384, true),
        (64, 16_416, false),
        (64, 16_448, true),
        (64, 32_704, true),
        (32, 32_704, false),
        (32, 32_736, false),
        (8, 32_760, false),
    ];
    judged(1, &rows);
}

/// Judges every length at the first eight bases, of which those in the rows fit: the first and the last
/// length of each, and its unit.
fn every_length(edition: u8, rows: &[(u32, u32, u32)]) {
    let mut pair = Pair::new();
    for base in (8..=64).step_by(8) {
        for length in (8..=LENGTH - base).step_by(8) {
            pair.begin("units", u64::from(base), u64::from(length));
            judged_alike(&mut pair, &state(edition, base, length));
        }
    }
    assert_eq!(pair.tally.refused(0), fitting(rows));
}

#[test]
fn every_length_at_the_first_eight_bases() {
    let rows = [(8, 8_184, 8), (8_192, 16_368, 16), (16_384, 32_736, 32)];
    every_length(0, &rows);
}

#[test]
fn every_length_at_the_first_eight_bases_in_the_second_edition() {
    let rows = [
        (8, 4_088, 8),
        (4_096, 8_176, 16),
        (8_192, 16_352, 32),
        (16_384, 32_704, 64),
    ];
    every_length(1, &rows);
}

/// Gives how many of these states fit, counted row by row.
fn fitting(rows: &[(u32, u32, u32)]) -> u64 {
    let row = |first: u32, last: u32, unit: u32| {
        let bases = (8..=64).step_by(8).filter(move |base| base % unit == 0);
        let lengths = move |base: u32| (first..=last.min(LENGTH - base)).step_by(unit as usize);
        bases.map(|base| lengths(base).count() as u64).sum::<u64>()
    };
    rows.iter()
        .map(|(first, last, unit)| row(*first, *last, *unit))
        .sum()
}
