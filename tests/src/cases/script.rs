//! A script under construction: lines for the replay programs, followed by the reference so that
//! later lines can name objects that live.

use lokhazim_reference::{Accounts, Handle, QUOTAS};

use crate::cases::choice::{choose, Habits};
use crate::cases::forged::View;
use crate::judge::cut::live_handles;
use crate::seed::Seed;
use crate::state::{Answer, Call, State, PLAIN};

/// A script and the state that it has led to.
pub struct Script {
    /// The lines so far.
    pub text: Vec<u8>,
    /// Heap and accounts after the lines so far.
    pub state: State,
    /// Every handle that was answered.
    pub given_out: Vec<Handle>,
}

/// Writes a line of a word and numbers.
pub fn line(word: &str, numbers: &[u64]) -> String {
    let mut text = word.to_owned();
    for number in numbers {
        text.push_str(&format!(" {number}"));
    }
    text.push('\n');
    text
}

/// Gives the line of an opening.
pub fn open_line(length: u32, grants: [u32; QUOTAS]) -> String {
    let numbers: Vec<u64> = [length]
        .iter()
        .chain(&grants)
        .map(|n| u64::from(*n))
        .collect();
    line("open", &numbers)
}

/// Gives the line of a call, or none for a call without a word.
pub fn call_line(call: Call) -> Option<String> {
    let word = match call {
        Call::Allocate(..) => "alloc",
        Call::Array(..) => "array",
        Call::Claim(..) => "claim",
        Call::Release(..) => "free",
        Call::FreeAll(_) => "all",
        Call::Reallocate(..) => "realloc",
        _ => return None,
    };
    Some(line(word, &call.numbers()))
}

impl Script {
    /// Starts with an opening of an allowed length.
    pub fn open(length: u32, grants: [u32; QUOTAS]) -> Script {
        let mut state = State {
            heap: vec![0; length as usize],
            accounts: Accounts::default(),
        };
        state.perform(Call::Open(grants, PLAIN));
        Script {
            text: open_line(length, grants).into_bytes(),
            state,
            given_out: Vec::new(),
        }
    }

    /// Starts with an opening in which every quota has the same grant.
    pub fn open_with(length: u32, grant: u32) -> Script {
        Script::open(length, [grant; QUOTAS])
    }

    /// Adds a call and gives the reference's answer.
    pub fn call(&mut self, call: Call) -> Answer {
        if let Some(line) = call_line(call) {
            self.text.extend_from_slice(line.as_bytes());
        }
        let answer = self.state.perform(call);
        let makes = matches!(
            call,
            Call::Allocate(..) | Call::Array(..) | Call::Reallocate(..)
        );
        if makes && answer.is_accepted() {
            self.given_out.push(answer.handle());
        }
        answer
    }

    /// Adds a chosen call.
    pub fn choose(&mut self, seed: &mut Seed, habits: &Habits) -> Answer {
        let view = View::new(&self.state.heap, &self.given_out);
        let call = choose(seed, habits, &view, &self.state.accounts);
        self.call(call)
    }

    /// Gives the live objects.
    pub fn live(&self) -> Vec<Handle> {
        live_handles(&self.state.heap)
    }

    /// Releases an object for the first quota that has a record for it.
    pub fn release(&mut self, handle: Handle) -> Answer {
        let holds = self.state.accounts.holds.iter();
        let holder = holds
            .filter(|hold| hold.serial == handle.serial)
            .map(|hold| hold.quota);
        let quota = holder.clone().next().unwrap_or(0);
        self.call(Call::Release(u32::from(quota), handle))
    }

    /// Gives the number of lines so far.
    pub fn lines(&self) -> usize {
        self.text.iter().filter(|byte| **byte == b'\n').count()
    }
}
