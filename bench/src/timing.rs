//! Nanoseconds per call: the programs take turns, round by round.

use crate::engine::Reference;
use crate::figures::{Summary, CALLS};
use crate::peer::{Peer, PeerRuns, ABOUT_REFERENCE};
use crate::plan::{Plan, Shape, LIVE_COUNTS, SHARED};
use crate::proved::Proved;
use crate::report::{Other, Report};
use crate::rounds::{Round, Runner, Runs};

/// How many rounds are timed.
pub const ROUNDS: usize = 15;

/// The steps of a round.
pub const STEPS: usize = 200;

/// What one program's rounds gave, call by call.
#[derive(Clone, Default)]
struct Samples([Vec<f64>; CALLS]);

impl Samples {
    /// Adds a round.
    fn add(&mut self, round: Round) {
        for (values, value) in self.0.iter_mut().zip(round) {
            values.push(value);
        }
    }

    /// Sums up.
    fn summaries(self) -> [Summary; CALLS] {
        self.0.map(Summary::new)
    }
}

/// Times the programs at every number of live objects, and the proved calls on shared objects.
pub fn times(peers: &[Peer]) -> Result<Report<Summary>, String> {
    let abouts = peers.iter().map(|peer| peer.about);
    let other = |about| Other {
        about,
        grid: Vec::new(),
    };
    let mut report = Report {
        unit: "time",
        proved: Vec::new(),
        shared: Vec::new(),
        others: [&ABOUT_REFERENCE]
            .into_iter()
            .chain(abouts)
            .map(other)
            .collect(),
    };
    for shape in LIVE_COUNTS.map(Shape::alone) {
        let plan = Plan::new(shape, ROUNDS, STEPS);
        let started: Result<Vec<PeerRuns>, String> =
            peers.iter().map(|peer| peer.start(&plan)).collect();
        let (proved, others) = take_turns(started?, &plan)?;
        report.proved.push(proved.summaries());
        for (other, samples) in report.others.iter_mut().zip(others) {
            other.grid.push(samples.summaries());
        }
    }
    for shape in SHARED {
        let (proved, _) = take_turns(Vec::new(), &Plan::new(shape, ROUNDS, STEPS))?;
        report.shared.push(proved.summaries());
    }
    Ok(report)
}

/// Runs all rounds of a plan; gives the samples of the proved calls, and of the reference and the peers.
fn take_turns(mut peers: Vec<PeerRuns>, plan: &Plan) -> Result<(Samples, Vec<Samples>), String> {
    let mut proved = Runs::new(Proved::open(), plan);
    let mut reference = Runs::new(Reference::open(), plan);
    let mut own = Samples::default();
    let mut others = vec![Samples::default(); 1 + peers.len()];
    proved.warm_up()?;
    reference.warm_up()?;
    peers.iter_mut().try_for_each(PeerRuns::warm_up)?;
    for _ in 0..ROUNDS {
        own.add(proved.next_round()?);
        others[0].add(reference.next_round()?);
        for (samples, peer) in others[1..].iter_mut().zip(&mut peers) {
            samples.add(peer.next_round()?);
        }
    }
    peers.into_iter().try_for_each(PeerRuns::finish)?;
    if proved.fingerprint() != reference.fingerprint() {
        let live = plan.shape.live;
        return Err(format!("the proved calls and the reference gave other handles at {live} live objects. 'make test' says where they differ."));
    }
    Ok((own, others))
}

/// Gives how far apart the middle half of the rounds lies at most, as a share of its median.
pub fn widest(report: &Report<Summary>) -> f64 {
    let shares = report.proved.iter().flatten();
    shares.map(|s| s.spread / s.median).fold(0.0, f64::max)
}
