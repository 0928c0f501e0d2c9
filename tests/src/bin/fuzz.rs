//! Compares the proved code with the reference from a fresh seed for a given time.
//!
//! `fuzz SECONDS [SEED]` compares scripts and calls, `fuzz sanitize SECONDS [SEED]` compares calls
//! alone with heaps that a memory checker can watch, `fuzz again FILE` makes a saved case again.

use std::env;
use std::fs;
use std::process::ExitCode;
use std::time::{Duration, Instant, SystemTime, UNIX_EPOCH};

use lokhazim_tests::cases::themes::THEMES;
use lokhazim_tests::judge::case::read_case;
use lokhazim_tests::judge::compare::Failure;
use lokhazim_tests::run::calls::Pair;
use lokhazim_tests::run::histories;
use lokhazim_tests::run::programs::{Feed, Programs};
use lokhazim_tests::run::reports::Reports;
use lokhazim_tests::run::rounds;
use lokhazim_tests::run::unsound;

/// How often progress is printed.
const PROGRESS: Duration = Duration::from_secs(5);

/// What the arguments may be.
const USAGE: &str =
    "say 'fuzz SECONDS [SEED]', 'fuzz sanitize SECONDS [SEED]' or 'fuzz again FILE'";

/// Does what the arguments say; a difference or a wrong argument is status 1.
fn main() -> ExitCode {
    let words: Vec<String> = env::args().skip(1).collect();
    let words: Vec<&str> = words.iter().map(String::as_str).collect();
    let done = match words.as_slice() {
        ["again", file] => again(file),
        ["sanitize", rest @ ..] => timed(rest, sanitize),
        rest => timed(rest, fuzz),
    };
    match done {
        Ok(()) => ExitCode::SUCCESS,
        Err(failure) => {
            eprintln!("FAILED: {failure}");
            ExitCode::FAILURE
        }
    }
}

/// Reads seconds and seed, prints the seed and runs until the time is over.
fn timed(words: &[&str], run: fn(Clock, u64) -> Result<(), Failure>) -> Result<(), Failure> {
    let number = |word: &str| word.parse::<u64>().map_err(|_| Failure(USAGE.to_owned()));
    let (seconds, seed) = match words {
        [seconds] => (number(seconds)?, fresh_seed()),
        [seconds, seed] => (number(seconds)?, number(seed)?),
        _ => return Err(Failure(USAGE.to_owned())),
    };
    println!("seed {seed}");
    run(Clock::new(seconds), seed)
}

/// Makes a seed of the time and the process.
fn fresh_seed() -> u64 {
    let since = SystemTime::now().duration_since(UNIX_EPOCH);
    let nanos = since.map_or(0, |time| time.as_nanos() as u64);
    (nanos ^ (u64::from(std::process::id()) << 40)) % 1_000_000_000_000
}

/// The time that a run has, and when it last said how far it is.
struct Clock {
    start: Instant,
    limit: Duration,
    said: Instant,
}

impl Clock {
    /// Starts now.
    fn new(seconds: u64) -> Clock {
        let start = Instant::now();
        Clock {
            start,
            limit: Duration::from_secs(seconds),
            said: start,
        }
    }

    /// Tells whether there is time left, and says how far the run is every few seconds.
    fn goes_on(&mut self, pair: &Pair) -> bool {
        let passed = self.start.elapsed();
        if self.said.elapsed() >= PROGRESS {
            self.said = Instant::now();
            let (scripts, calls) = (pair.tally.scripts, pair.tally.all_calls());
            println!("{} s: {scripts} scripts, {calls} calls", passed.as_secs());
        }
        passed < self.limit
    }
}

/// Compares scripts and calls until the time is over.
fn fuzz(mut clock: Clock, seed: u64) -> Result<(), Failure> {
    let programs = Programs::find()?;
    let mut pair = Pair::new();
    let mut reports = Reports::new();
    let mut round = 0;
    while clock.goes_on(&pair) {
        for theme in &THEMES {
            // There are many kinds of malformed lines, and one of them at a time.
            let scripts = if theme.name == "malformed" { 8 } else { 1 };
            for n in scripts * round..scripts * (round + 1) {
                rounds::script(&programs, &mut pair.tally, theme, seed, n)?;
            }
        }
        for turn in 0..4 {
            rounds::calls(&mut pair, seed, 4 * round + turn)?;
            rounds::images(&mut pair, seed, 4 * round + turn)?;
            rounds::reports(&mut reports, seed, 4 * round + turn)?;
        }
        round += 1;
    }
    println!("No difference. {}", pair.tally);
    Ok(())
}

/// Compares calls until the time is over, each heap in an allocation of its own.
fn sanitize(mut clock: Clock, seed: u64) -> Result<(), Failure> {
    let mut pair = Pair::for_memory_checker();
    let mut reports = Reports::for_memory_checker();
    let mut round = 0;
    while clock.goes_on(&pair) {
        rounds::calls(&mut pair, seed, round)?;
        rounds::images(&mut pair, seed, round)?;
        rounds::reports(&mut reports, seed, round)?;
        round += 1;
    }
    println!("No difference. {}", pair.tally);
    Ok(())
}

/// Reads a saved image again, into the heap that was saved beside it.
fn read_again(file: &str, image: &[u8]) -> Result<(), Failure> {
    let beside = file.replace(".image", ".heap");
    let heap = fs::read(&beside)
        .map_err(|error| Failure(format!("{beside} could not be read: {error}")))?;
    let mut pair = Pair::new();
    pair.begin("again", 0, 0);
    let (refusal, _) = pair.read_image(image, &heap)?;
    println!("No difference. The image is read with refusal {refusal}");
    Ok(())
}

/// Makes a saved case again: a script if the file's name ends in `.in`, an image that is read if it
/// ends in `.image`, else a call.
fn again(file: &str) -> Result<(), Failure> {
    let bytes =
        fs::read(file).map_err(|error| Failure(format!("{file} could not be read: {error}")))?;
    if file.ends_with(".in") {
        let output = Programs::find()?.compare("again", &bytes, Feed::Whole)?;
        println!("No difference. {}", String::from_utf8_lossy(&output));
        return Ok(());
    }
    if file.ends_with(".image") {
        return read_again(file, &bytes);
    }
    let text = String::from_utf8_lossy(&bytes);
    let (state, call) =
        read_case(&text).ok_or_else(|| Failure(format!("{file} is no saved call")))?;
    let mut pair = Pair::new();
    pair.begin("again", 0, 0);
    unsound::check_is_the_judges(&mut pair, &state)?;
    let answer = histories::once(&mut pair, state, call)?;
    println!(
        "No difference. '{call}' gives refusal {}, numbers {:?}",
        answer.refusal, answer.numbers
    );
    Ok(())
}
