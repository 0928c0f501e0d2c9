//! Calls on one heap, each made by both sides and held to the ledger's rules, with the answers that
//! are wanted.

use lokhazim_reference::{Accounts, Handle, QUOTAS};

use crate::judge::cut::blocks;
use crate::run::calls::Pair;
use crate::run::histories::once;
use crate::state::{Answer, Call, Choice, State};

/// A heap with its accounts on which calls are made by both sides, and by the ledger's rules.
pub struct Run {
    /// Both sides.
    pub pair: Pair,
    /// The state that the calls have led to.
    pub state: State,
}

impl Run {
    /// Opens a heap of this length, with ample grants.
    pub fn open(length: usize, choice: Choice) -> Run {
        let state = State {
            heap: vec![0xA5; length],
            accounts: Accounts::default(),
        };
        let mut run = Run {
            pair: Pair::new(),
            state,
        };
        run.gives(Call::Open([1_000_000; QUOTAS], choice), &[]);
        run
    }

    /// Opens a heap with some choice and checks kind and edition of its accounts; and that a refused
    /// opening leaves accounts of zeros.
    pub fn opens_with(choice: Choice, kind: u8, edition: u8) {
        let Run { state, .. } = Run::open(64, choice);
        let marks = (state.accounts.kind, state.accounts.edition);
        assert_eq!(marks, (kind, edition));
        let mut refused = Run::on(State {
            heap: vec![7; 63],
            accounts: state.accounts,
        });
        refused.refuses(Call::Open([5; QUOTAS], choice), 1);
        assert_eq!(refused.state.accounts, Accounts::default());
    }

    /// Goes on from a state.
    pub fn on(state: State) -> Run {
        let pair = Pair::new();
        Run { pair, state }
    }

    /// Makes a call on both sides, on a copy by the ledger's rules too.
    pub fn call(&mut self, call: Call) -> Answer {
        let checked = once(&mut self.pair, self.state.clone(), call);
        let answer = self.pair.call(&mut self.state, call);
        let answer = answer.unwrap_or_else(|failure| panic!("{failure}"));
        assert_eq!(
            checked.unwrap_or_else(|failure| panic!("{failure}")),
            answer
        );
        answer
    }

    /// Makes a call and checks the numbers that it answers.
    pub fn gives(&mut self, call: Call, numbers: &[u64]) {
        assert_eq!(self.call(call), Answer::accepted(numbers), "{call}");
    }

    /// Makes a call and checks the number of its refusal.
    pub fn refuses(&mut self, call: Call, number: u32) {
        assert_eq!(self.call(call), Answer::refused(number), "{call}");
    }

    /// Makes objects of 8 bytes for a quota and gives their handles.
    pub fn objects(&mut self, quota: u32, count: usize) -> Vec<Handle> {
        let mut made = |_| self.call(Call::Allocate(quota, 8)).handle();
        (0..count).map(&mut made).collect()
    }

    /// Checks the blocks by size and serial.
    pub fn has(&self, wanted: &[(u32, u32)]) {
        let found = blocks(&self.state.heap).into_iter();
        let found: Vec<(u32, u32)> = found.map(|block| (block.size, block.serial)).collect();
        assert_eq!(found, wanted);
    }
}
