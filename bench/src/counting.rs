//! Instructions per call of the programs, each run by itself under callgrind.

use std::path::Path;

use crate::callgrind::{Callgrind, Counted};
use crate::engine::Reference;
use crate::figures::{Call, Count, CALLS};
use crate::peer::{Peer, ABOUT_REFERENCE};
use crate::plan::{Plan, Shape, LIVE_COUNTS, SHARED};
use crate::proved::Proved;
use crate::report::{Grid, Other, Report};
use crate::rounds::{Runner, Runs};
use crate::serials::{Order, Serials, Slowed, SERIAL_CALLS};

/// The steps of the round that is counted.
const STEPS: usize = 200;

/// The same for the reference, which takes as long for these under callgrind as the other programs for theirs.
const REFERENCE_STEPS: usize = 20;

/// What counts: callgrind, on this program and on the peers.
pub struct Counter<'a> {
    /// The tool.
    pub callgrind: Callgrind,
    /// The program that runs the proved calls and the reference.
    pub this_program: &'a Path,
}

/// Gives a plan that is counted: a first round, and one behind it.
fn plan(shape: Shape, steps: usize) -> Plan {
    Plan::new(shape, 1, steps)
}

/// Runs the plan by the named program, for callgrind to count.
pub fn run_counted(program: &str, live: &str, holders: &str) -> Result<(), String> {
    let (Ok(live), Ok(holders)) = (live.parse(), holders.parse()) else {
        return Err("LIVE and HOLDERS are numbers".to_string());
    };
    let plan = |steps| plan(Shape { live, holders }, steps);
    match program {
        "proved" => two_rounds(Runs::new(Proved::open(), &plan(STEPS))),
        "reference" => two_rounds(Runs::new(Reference::open(), &plan(REFERENCE_STEPS))),
        other => Err(format!("PROGRAM is proved or reference, and not {other}")),
    }
}

/// Runs the first round and the one that is counted.
fn two_rounds(mut runs: impl Runner) -> Result<(), String> {
    runs.warm_up()?;
    runs.next_round().map(|_| ())
}

/// Runs the calls on a heap whose objects have certain serials, for callgrind to count.
pub fn run_serials(order: &str, live: &str) -> Result<(), String> {
    let order = Order::ALL.into_iter().find(|found| found.name() == order);
    match (order, live.parse()) {
        (Some(order), Ok(live)) => Serials::new(order, live).measured_rounds(),
        _ => return Err("ORDER is row or worst, and LIVE a number".to_string()),
    };
    Ok(())
}

impl Counter<'_> {
    /// Counts all programs.
    pub fn counts(&self, peers: &[Peer]) -> Result<Report<Count>, String> {
        let alone = LIVE_COUNTS.map(Shape::alone);
        let own = |name: &str, shapes: &[Shape]| -> Result<Grid<Count>, String> {
            let counted = |shape: &Shape| self.count_own(name, *shape);
            shapes.iter().map(counted).collect()
        };
        let mut others = vec![Other {
            about: &ABOUT_REFERENCE,
            grid: own("reference", &alone)?,
        }];
        for peer in peers {
            let counted = alone.iter().map(|shape| self.count_peer(peer, *shape));
            others.push(Other {
                about: peer.about,
                grid: counted.collect::<Result<Grid<Count>, String>>()?,
            });
        }
        Ok(Report {
            unit: "instructions",
            proved: own("proved", &alone)?,
            shared: own("proved", &SHARED)?,
            others,
        })
    }

    /// Counts the calls by the worst serials and by serials in a row.
    pub fn slowed(&self, live: usize) -> Result<Slowed, String> {
        let count = |order: Order| {
            let name = order.name();
            let words = ["serials", name, &live.to_string()].map(str::to_string);
            self.callgrind.count(&Counted {
                name: format!("serials-{name}-{live}"),
                program: self.this_program,
                arguments: words.to_vec(),
                preload: None,
                input: String::new(),
                calls: &SERIAL_CALLS,
            })
        };
        Ok(Slowed {
            live,
            row: count(Order::Row)?,
            worst: count(Order::Worst)?,
        })
    }

    /// Counts the proved calls or the reference.
    fn count_own(&self, name: &str, shape: Shape) -> Result<[Count; CALLS], String> {
        let Shape { live, holders } = shape;
        let numbers = [live, holders].map(|number| number.to_string());
        let words = ["count", name].map(str::to_string);
        self.count_four(Counted {
            name: format!("{name}-{live}-{holders}"),
            program: self.this_program,
            arguments: words.into_iter().chain(numbers).collect(),
            preload: None,
            input: String::new(),
            calls: &Call::NAMES,
        })
    }

    /// Counts a peer. A line feed behind the plan starts each of the two rounds.
    fn count_peer(&self, peer: &Peer, shape: Shape) -> Result<[Count; CALLS], String> {
        self.count_four(Counted {
            name: format!("{}-{}", peer.about.file, shape.live),
            program: &peer.program,
            arguments: Vec::new(),
            preload: peer.preload.as_deref(),
            input: plan(shape, STEPS).text() + "\n\n",
            calls: &Call::NAMES,
        })
    }

    /// Counts the four calls.
    fn count_four(&self, counted: Counted) -> Result<[Count; CALLS], String> {
        let counts = self.callgrind.count(&counted)?;
        counts
            .try_into()
            .map_err(|_| "a call is missing".to_string())
    }
}
