//! Rounds of comparisons that the gate's tests and the fuzz program share.

use crate::cases::damage::DAMAGES;
use crate::cases::harms::HARMS;
use crate::cases::themes::Theme;
use crate::judge::compare::Failure;
use crate::judge::tally::Tally;
use crate::run::calls::Pair;
use crate::run::cleanup;
use crate::run::comparisons;
use crate::run::histories::{self, Beginning};
use crate::run::image_cases;
use crate::run::moves;
use crate::run::programs::{Feed, Programs};
use crate::run::queues::{self, Queues};
use crate::run::reports::{self, Reports};
use crate::run::unsound;
use crate::seed::Seed;

/// Compares the n-th script of a theme and a seed.
pub fn script(
    programs: &Programs,
    tally: &mut Tally,
    theme: &Theme,
    seed: u64,
    n: u64,
) -> Result<Vec<u8>, Failure> {
    let mut numbers = Seed::of_case(seed, n);
    let input = (theme.make)(&mut numbers);
    let feed = match numbers.below(8) {
        0 => Feed::Pieces(numbers.between(100, 5_000) as usize),
        1 if input.len() < 3_000 => Feed::Pieces(numbers.between(1, 7) as usize),
        _ => Feed::Whole,
    };
    let name = format!("{}-seed-{seed}-case-{n}", theme.name);
    let output = programs.compare(&name, &input, feed)?;
    tally.count_script(&output);
    Ok(output)
}

/// Compares calls of every part for the n-th case of a seed: about a thousand.
pub fn calls(pair: &mut Pair, seed: u64, n: u64) -> Result<(), Failure> {
    let beginning = match n % 8 {
        0 => Beginning::Crowd,
        4 => Beginning::Long,
        _ => Beginning::Opening,
    };
    histories::run(pair, beginning, seed, n, 250)?;
    for turn in 0..4 {
        histories::run(pair, Beginning::SoundState, seed, 4 * n + turn, 40)?;
        unsound::noise(pair, seed, 4 * n + turn)?;
        unsound::together(pair, seed, 4 * n + turn)?;
    }
    cleanup::lists(pair, seed, n)?;
    queues::history(pair, &mut Queues::default(), seed, n)?;
    unsound::lengths(pair, seed, n)?;
    for turn in 0..8 {
        let place = (8 * n + turn) as usize % DAMAGES.len();
        unsound::alone(pair, &DAMAGES[place], seed, 8 * n + turn)?;
    }
    Ok(())
}

/// Compares images for the n-th case of a seed: some dozens.
pub fn images(pair: &mut Pair, seed: u64, n: u64) -> Result<(), Failure> {
    image_cases::states(pair, seed, n)?;
    image_cases::narrow(pair, seed, n)?;
    moves::states(pair, seed, n)?;
    let harms = HARMS.len() as u64;
    for turn in 0..harms {
        image_cases::harmed(pair, seed, harms * n + turn)?;
        moves::harmed(pair, seed, harms * n + turn)?;
    }
    for turn in 0..4 {
        image_cases::forged(pair, seed, 4 * n + turn)?;
        moves::forged(pair, seed, 4 * n + turn)?;
        comparisons::pairs(pair, seed, 4 * n + turn)?;
    }
    Ok(())
}

/// Compares audit reports for the n-th case of a seed: some dozens.
pub fn reports(reports: &mut Reports, seed: u64, n: u64) -> Result<(), Failure> {
    (20 * n..20 * (n + 1)).try_for_each(|n| reports::random(reports, seed, n))
}
