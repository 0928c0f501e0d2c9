//! One call made by the proved code and by the reference on the same state, and compared.

use crate::judge::compare::{call_failure, differences, Failure, Left};
use crate::judge::tally::Tally;
use crate::run::boundary::calls;
use crate::run::lent::Lent;
use crate::run::words::{accounts_of, padding_differences, Words};
use crate::state::{Answer, Call, State};

/// The two sides, what was compared so far, and where the present case comes from.
pub struct Pair {
    /// What was compared.
    pub tally: Tally,
    /// Where the present case comes from: part, seed and number.
    pub origin: String,
    /// Whether the heap is lent with guard bytes; without them it has its own exact allocation.
    pub guarded: bool,
}

impl Pair {
    /// Starts with nothing compared, lending heaps with guard bytes.
    pub fn new() -> Pair {
        Pair {
            tally: Tally::default(),
            origin: String::new(),
            guarded: true,
        }
    }

    /// Starts with nothing compared, lending each heap as an allocation of its own.
    pub fn for_memory_checker() -> Pair {
        Pair {
            guarded: false,
            ..Pair::new()
        }
    }

    /// Names where the next cases come from.
    pub fn begin(&mut self, part: &str, seed: u64, number: u64) {
        self.origin = format!("{part} seed {seed} case {number}");
    }

    /// Makes a call by the reference and by the proved code, and compares answer, accounts and every
    /// byte. The state is taken on to what both left.
    pub fn call(&mut self, state: &mut State, call: Call) -> Result<Answer, Failure> {
        let mut expected = state.clone();
        let wanted = expected.perform(call);
        let reference = Left {
            state: &expected,
            answer: &wanted,
        };
        let mut made = self.made(state, call);
        if made.state != expected || made.answer != wanted {
            made.wrong.extend(differences(&made.left(), &reference));
        }
        if !made.wrong.is_empty() {
            return Err(call_failure(&self.origin, state, call, &made.wrong));
        }
        self.tally.count_call(call, state, &expected, &wanted);
        *state = expected;
        Ok(wanted)
    }

    /// Lends a copy of the heap.
    fn lent(&self, heap: &[u8]) -> Lent {
        match self.guarded {
            true => Lent::guarded(heap),
            false => Lent::exact(heap),
        }
    }

    /// Makes a call by the proved code, over accounts with any padding.
    fn made(&self, state: &State, call: Call) -> Made {
        let mut lent = self.lent(&state.heap);
        let mut words = match self.guarded {
            true => Words::guarded(state, call),
            false => Words::exact(state, call),
        };
        let before = *words.part();
        let answer = calls::perform(lent.part(), words.part(), call);
        let (heap, after) = (lent.part().to_vec(), *words.part());
        let mut wrong = Vec::new();
        if !lent.guards_hold() {
            wrong.push("the proved code wrote outside the heap".to_owned());
        }
        wrong.extend(padding_differences(&before, &after, call));
        if !words.guards_hold() {
            wrong.push("the proved code wrote outside the accounts".to_owned());
        }
        if !answer.is_accepted() && !matches!(call, Call::Open(..)) && after != before {
            wrong.push("a refused call changed the accounts".to_owned());
        }
        let accounts = accounts_of(&after);
        Made {
            state: State { heap, accounts },
            answer,
            wrong,
        }
    }
}

/// What the proved code left of a call, and what is wrong with it by itself.
struct Made {
    state: State,
    answer: Answer,
    wrong: Vec<String>,
}

impl Made {
    /// What is compared with the reference.
    fn left(&self) -> Left<'_> {
        Left {
            state: &self.state,
            answer: &self.answer,
        }
    }
}

impl Default for Pair {
    fn default() -> Pair {
        Pair::new()
    }
}
