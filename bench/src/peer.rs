//! The programs beside the proved calls. Those in C, `bench/peer.c` with one peer each, are run beside this one.

use std::io::{BufRead, BufReader, Write};
use std::path::{Path, PathBuf};
use std::process::{Child, ChildStdin, ChildStdout, Command, Stdio};
use std::str::FromStr;

use crate::plan::{Plan, Shape};
use crate::rounds::{per_call, Round, Runner, Times};

/// What the reader is told of a program.
pub struct About {
    /// The name of its file, and of its source in `bench/`.
    pub file: &'static str,
    /// The head of its column.
    pub title: &'static str,
    /// Whether something stands against claim.
    pub has_claims: bool,
    /// What it does.
    pub text: &'static str,
}

/// The peer that the aims are about.
pub const MCHECK: &str = "mcheck_pedantic";

/// The second program.
pub const ABOUT_REFERENCE: About = About {
    file: "reference",
    title: "reference",
    has_claims: true,
    text: "the second program, in Rust. It changes the accounts in place.",
};

/// The peers in C.
pub const PEERS: [About; 3] = [
    About {
        file: "mcheck",
        title: MCHECK,
        has_claims: true,
        text: "glibc's malloc, free and realloc with a check of its whole heap at each call, and no quotas or holds.
  \
               Against claim stands mcheck_check_all(), its check alone; realloc may stay in place.",
    },
    About {
        file: "dmalloc",
        title: "dmalloc",
        has_claims: true,
        text: "a malloc for debugging that checks its whole heap at each call (check-heap, inter=1).
  \
               Against claim stands dmalloc_verify(NULL).",
    },
    About {
        file: "nano",
        title: "nano malloc",
        has_claims: false,
        text: "newlib's malloc for small machines, compiled for this one. It checks nothing.",
    },
];

/// A peer in C.
#[derive(Clone)]
pub struct Peer {
    /// What it is.
    pub about: &'static About,
    /// The compiled program.
    pub program: PathBuf,
    /// A library that it is run with.
    pub preload: Option<PathBuf>,
}

/// The peer at work on a plan.
pub struct PeerRuns {
    name: &'static str,
    child: Child,
    orders: ChildStdin,
    answers: BufReader<ChildStdout>,
    filling: String,
    clock: f64,
}

impl Peer {
    /// Finds a peer in a folder by a word of the command line: its name, or its name, `=` and a library.
    pub fn named(folder: &Path, word: &str) -> Option<Peer> {
        let (name, preload) = match word.split_once('=') {
            Some((name, preload)) => (name, Some(PathBuf::from(preload))),
            None => (word, None),
        };
        let about = PEERS.iter().find(|about| about.file == name)?;
        Some(Peer {
            about,
            program: folder.join(name),
            preload,
        })
    }

    /// Starts the peer on a plan.
    pub fn start(&self, plan: &Plan) -> Result<PeerRuns, String> {
        let mut command = Command::new(&self.program);
        if let Some(preload) = &self.preload {
            command.env("LD_PRELOAD", preload);
        }
        let mut child = command
            .stdin(Stdio::piped())
            .stdout(Stdio::piped())
            .spawn()
            .map_err(|error| self.trouble(&error))?;
        let orders = child.stdin.take().ok_or("the peer has no input")?;
        let answers = child.stdout.take().ok_or("the peer has no output")?;
        let mut runs = PeerRuns {
            name: self.about.file,
            child,
            orders,
            answers: BufReader::new(answers),
            filling: String::new(),
            clock: 0.0,
        };
        runs.filling = runs.line()?;
        runs.order(plan.text().as_bytes())?;
        runs.clock = runs.numbers()?[0];
        Ok(runs)
    }

    /// Says what the peer does to a new object's bytes.
    pub fn filling(&self) -> Result<String, String> {
        let runs = self.start(&Plan::new(Shape::alone(2), 0, 1))?;
        let filling = runs.filling.clone();
        runs.finish()?;
        Ok(filling)
    }

    /// Says that the peer can't be run.
    fn trouble(&self, error: &dyn std::fmt::Display) -> String {
        let (program, name) = (self.program.display(), self.about.file);
        format!("{program} can't be run: {error}. 'make bench' compiles it from bench/peer.c and bench/{name}.c.")
    }
}

impl PeerRuns {
    /// Waits for the peer's end.
    pub fn finish(mut self) -> Result<(), String> {
        let name = self.name;
        drop(self.orders);
        match self.child.wait() {
            Ok(status) if status.success() => Ok(()),
            Ok(status) => Err(format!(
                "bench/{name}.c ended with {status}; it says why above"
            )),
            Err(error) => Err(format!("bench/{name}.c was lost: {error}")),
        }
    }

    /// Sends bytes to the peer.
    fn order(&mut self, bytes: &[u8]) -> Result<(), String> {
        let sent = self.orders.write_all(bytes);
        sent.and_then(|()| self.orders.flush())
            .map_err(|error| format!("bench/{}.c takes no more input: {error}", self.name))
    }

    /// Reads a line of the peer.
    fn line(&mut self) -> Result<String, String> {
        let mut line = String::new();
        match self.answers.read_line(&mut line) {
            Ok(1..) => Ok(line.trim().to_string()),
            _ => Err(format!(
                "bench/{}.c ended too early; it says why above",
                self.name
            )),
        }
    }

    /// Reads a line of at least one number.
    fn numbers<N: FromStr>(&mut self) -> Result<Vec<N>, String> {
        let line = self.line()?;
        let numbers: Result<Vec<N>, N::Err> = line.split(' ').map(str::parse).collect();
        numbers.map_err(|_| {
            format!(
                "bench/{}.c printed '{line}', and not numbers alone",
                self.name
            )
        })
    }
}

impl Runner for PeerRuns {
    fn warm_up(&mut self) -> Result<(), String> {
        self.next_round().map(|_| ())
    }

    fn next_round(&mut self) -> Result<Round, String> {
        self.order(b"\n")?;
        let mut times: Times = Default::default();
        for times in &mut times {
            *times = self.numbers()?;
        }
        Ok(per_call(times, self.clock))
    }
}
