//! The benchmark: the proved calls, the reference and peers such as glibc under `mcheck_pedantic` run the same
//! operations, and their costs are put side by side. `scripts/bench` builds and runs it:
//!
//! - `lokhazim-bench report FOLDER [PEER..]` prints the whole report; FOLDER has the compiled peers and takes
//!   callgrind's files, and a PEER is a peer's name, or its name, `=` and a library that it is run with.
//! - `lokhazim-bench count PROGRAM LIVE HOLDERS` runs two rounds of a plan, for callgrind to count.
//! - `lokhazim-bench serials ORDER LIVE` runs calls on a heap with serials in a row or with the worst, for callgrind.

#![forbid(unsafe_code)]

mod aims;
mod callgrind;
mod comparing;
mod counting;
mod engine;
mod figures;
mod peer;
mod plan;
mod proved;
mod report;
mod rounds;
mod serials;
mod table;
mod timing;
mod worst;

use std::env;
use std::path::Path;
use std::process::ExitCode;

use aims::{aims_table, judged, judged_fewest, judged_worst, Row};
use callgrind::Callgrind;
use comparing::comparisons;
use counting::{run_counted, run_serials, Counter};
use engine::{clearing, Reference};
use peer::{Peer, ABOUT_REFERENCE};
use plan::{longest, HEAP_BYTES, LIVE_COUNTS};
use proved::Proved;
use serials::{serials_table, Slowed, SERIAL_COUNTS};
use timing::{times, widest, ROUNDS, STEPS};

/// How the program is called.
const USAGE: &str = "use: lokhazim-bench report FOLDER [PEER..]";

fn main() -> ExitCode {
    let arguments: Vec<String> = env::args().skip(1).collect();
    let words: Vec<&str> = arguments.iter().map(String::as_str).collect();
    let done = match words[..] {
        ["report", folder, ref peers @ ..] => report(Path::new(folder), peers),
        ["count", program, live, holders] => run_counted(program, live, holders),
        ["serials", order, live] => run_serials(order, live),
        _ => Err(USAGE.to_string()),
    };
    match done {
        Ok(()) => ExitCode::SUCCESS,
        Err(message) => {
            eprintln!("FAILED: {message}");
            ExitCode::FAILURE
        }
    }
}

/// Prints the whole report.
fn report(folder: &Path, words: &[&str]) -> Result<(), String> {
    let named = |word: &&str| Peer::named(folder, word).ok_or(format!("no peer is called {word}"));
    let peers: Vec<Peer> = words.iter().map(named).collect::<Result<_, String>>()?;
    explain(&peers)?;
    let mut aims = instructions(folder, &peers)?;
    let times = times(&peers)?;
    let spread = 100.0 * widest(&times);
    print_table(
        "Nanoseconds per call, the median of the rounds",
        &times.table(),
    );
    println!("The middle half of the proved calls' rounds lies within {spread:.0} % of their median at most. Other work on the machine makes times");
    println!("greater and less sure; counts of instructions are exact.\n");
    print_table(SHARED_TITLE, &times.shared_table());
    println!("{}", comparisons());
    aims.extend(judged(&times));
    print_table("Aims", &aims_table(&aims));
    Ok(())
}

/// Prints what is counted, and gives the rows of the aims that it decides.
fn instructions(folder: &Path, peers: &[Peer]) -> Result<Vec<Row>, String> {
    let Some(callgrind) = Callgrind::find(folder.to_path_buf()) else {
        println!("Instructions are not counted: valgrind is missing (Debian: valgrind).\n");
        return Ok(Vec::new());
    };
    let this_program = env::current_exe().map_err(|error| error.to_string())?;
    let counter = Counter {
        callgrind,
        this_program: &this_program,
    };
    let counts = counter.counts(peers)?;
    let slowed = SERIAL_COUNTS.map(|live| counter.slowed(live));
    let slowed: Vec<Slowed> = slowed.into_iter().collect::<Result<_, String>>()?;
    print_table("Instructions per call", &counts.table());
    print_table(SHARED_TITLE, &counts.shared_table());
    print_table(
        "Instructions on one heap with serials in a row and with the worst, and the fewest nanoseconds",
        &serials_table(&slowed),
    );
    let mut aims = judged(&counts);
    aims.push(judged_fewest(&counts));
    aims.push(judged_worst(&slowed));
    Ok(aims)
}

/// The title of a table of shared objects.
const SHARED_TITLE: &str =
    "The same with as many records, where four quotas hold each object instead of one";

/// Prints a table with its title.
fn print_table(title: &str, table: &str) {
    println!("{title}\n\n{table}");
}

/// Says what is measured, and what each program does with an object's bytes.
fn explain(peers: &[Peer]) -> Result<(), String> {
    let proved = clearing(&mut Proved::open());
    let reference = clearing(&mut Reference::open());
    let most = LIVE_COUNTS[LIVE_COUNTS.len() - 1];
    let (few, many) = (longest(LIVE_COUNTS[0]), longest(most));
    println!(
        "The same operations by several programs, all built for release.
- The heap has {HEAP_BYTES} bytes, requests have 1 to {few}, at {most} objects to {many}, the seed is fixed.
  'live' is the number of live objects at a call's fullest moment.
- A step is allocate, claim, release, reallocate; {ROUNDS} rounds of {STEPS} steps after one for warming up,
  the programs in turn. Behind a figure stands in brackets how often it goes into that of the proved call.
- Each call is timed by itself, and what the clock costs is taken off. The slowest tenth of a round's calls
  is left out, since the system may have interrupted them. The release that takes a claim back is not timed.
- proved: the library, by its Rust crate, on the accounts where they lie. An object's bytes are {proved}.
- reference: {} An object's bytes are {reference}.",
        ABOUT_REFERENCE.text
    );
    for peer in peers {
        let (title, text, bytes) = (peer.about.title, peer.about.text, peer.filling()?);
        println!("- {title}: {text} An object's bytes are {bytes}.");
    }
    println!();
    Ok(())
}
