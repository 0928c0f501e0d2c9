//! A heap with its accounts, the calls as values, and what the reference does with them.

use std::fmt;

use lokhazim_reference::{
    allocate, allocate_array, block_at, can_release, check, claim, clear_permissions, free_all,
    lend, lend_mut, open_with, reallocate, release, remaining, sweep, Accounts, Block, Edition,
    Handle, Kind, Options, Refusal, QUOTAS,
};

/// What an opening is told of the heap, as numbers: 0 for a plain heap and for the first edition, and
/// any other number for quarantine and for the second.
#[derive(Clone, Copy, Debug, PartialEq, Eq)]
pub struct Choice {
    /// The number of the kind.
    pub kind: u32,
    /// The number of the edition.
    pub edition: u32,
}

impl Choice {
    /// Gives the choice of these numbers.
    pub const fn of(kind: u32, edition: u32) -> Choice {
        Choice { kind, edition }
    }
}

/// A plain heap of the first edition.
pub const PLAIN: Choice = Choice::of(0, 0);

/// A heap with quarantine of the first edition.
pub const QUARANTINE: Choice = Choice::of(1, 0);

/// A plain heap of the second edition.
pub const SECOND: Choice = Choice::of(0, 1);

/// Both kinds.
pub const KINDS: [Choice; 2] = [PLAIN, QUARANTINE];

/// Both editions.
pub const EDITIONS: [Choice; 2] = [PLAIN, SECOND];

/// Both kinds in both editions.
pub const CHOICES: [Choice; 4] = [PLAIN, QUARANTINE, SECOND, Choice::of(1, 1)];

/// A heap with its accounts.
#[derive(Clone, Debug, PartialEq, Eq)]
pub struct State {
    /// The bytes of the heap.
    pub heap: Vec<u8>,
    /// The accounts.
    pub accounts: Accounts,
}

/// A call with its arguments (rules, section 8).
#[derive(Clone, Copy, Debug, PartialEq, Eq)]
pub enum Call {
    /// Open with the grants and the numbers of kind and edition.
    Open([u32; QUOTAS], Choice),
    /// Allocate: quota, length.
    Allocate(u32, u32),
    /// Allocate array: quota, count, size.
    Array(u32, u32, u32),
    /// Claim: quota, handle.
    Claim(u32, Handle),
    /// Release: quota, handle.
    Release(u32, Handle),
    /// Free-all: quota.
    FreeAll(u32),
    /// Reallocate: quota, handle, length.
    Reallocate(u32, Handle, u32),
    /// Lend, as the range of the object's bytes: handle.
    Lend(Handle),
    /// One write inside a lent object: handle, place in the object, byte.
    Write(Handle, u32, u8),
    /// Remaining: quota.
    Remaining(u32),
    /// Can release: quota, handle.
    CanRelease(u32, Handle),
    /// The listing's block at a place.
    List(usize),
    /// The check that every call but open makes first.
    Check,
    /// Clear permissions: quota, a number whose bits name them.
    ClearPermissions(u32, u32),
    /// Sweep.
    Sweep,
}

/// What a call answers: the refusal's number or 0, and the numbers of the answer.
///
/// Numbers that a call does not answer are 0, and so are all of them in a refusal.
#[derive(Clone, Copy, Debug, PartialEq, Eq)]
pub struct Answer {
    /// The refusal's number, 0 where the call is accepted.
    pub refusal: u32,
    /// Base, length and serial; or an amount; or start and end; or found, offset, size and serial.
    pub numbers: [u64; 4],
}

impl Call {
    /// The names of the calls, as the saved cases and the tallies write them.
    pub const NAMES: [&'static str; 15] = [
        "open",
        "allocate",
        "array",
        "claim",
        "release",
        "free-all",
        "reallocate",
        "lend",
        "write",
        "remaining",
        "can-release",
        "list",
        "check",
        "clear-permissions",
        "sweep",
    ];

    /// Gives the place of the call's name in the list of names.
    pub fn kind(self) -> usize {
        match self {
            Call::Open(..) => 0,
            Call::Allocate(..) => 1,
            Call::Array(..) => 2,
            Call::Claim(..) => 3,
            Call::Release(..) => 4,
            Call::FreeAll(_) => 5,
            Call::Reallocate(..) => 6,
            Call::Lend(_) => 7,
            Call::Write(..) => 8,
            Call::Remaining(_) => 9,
            Call::CanRelease(..) => 10,
            Call::List(_) => 11,
            Call::Check => 12,
            Call::ClearPermissions(..) => 13,
            Call::Sweep => 14,
        }
    }

    /// Gives the handle that the call names, if it has one.
    pub fn handle(self) -> Option<Handle> {
        match self {
            Call::Claim(_, h) | Call::Release(_, h) | Call::CanRelease(_, h) => Some(h),
            Call::Reallocate(_, h, _) | Call::Lend(h) | Call::Write(h, ..) => Some(h),
            _ => None,
        }
    }

    /// Gives the quota that the call names, if it has one.
    pub fn quota(self) -> Option<u32> {
        match self {
            Call::Allocate(q, _) | Call::Array(q, ..) | Call::Claim(q, _) => Some(q),
            Call::Release(q, _) | Call::FreeAll(q) | Call::Reallocate(q, ..) => Some(q),
            Call::Remaining(q) | Call::CanRelease(q, _) | Call::ClearPermissions(q, _) => Some(q),
            _ => None,
        }
    }

    /// Gives the call's numbers in the order in which they are written.
    pub fn numbers(self) -> Vec<u64> {
        let with = |first: &[u32], h: Handle, last: &[u32]| {
            let handle = [h.base, h.length, h.serial];
            let all = [first, &handle, last].concat();
            all.into_iter().map(u64::from).collect()
        };
        let plain = |numbers: &[u32]| numbers.iter().map(|n| u64::from(*n)).collect();
        match self {
            Call::Open(grants, Choice { kind, edition }) => {
                plain(&[&grants[..], &[kind, edition]].concat())
            }
            Call::Allocate(q, n) | Call::ClearPermissions(q, n) => plain(&[q, n]),
            Call::Array(q, n, s) => plain(&[q, n, s]),
            Call::Claim(q, h) | Call::Release(q, h) | Call::CanRelease(q, h) => with(&[q], h, &[]),
            Call::FreeAll(q) | Call::Remaining(q) => plain(&[q]),
            Call::Reallocate(q, h, n) => with(&[q], h, &[n]),
            Call::Lend(h) => with(&[], h, &[]),
            Call::Write(h, at, byte) => with(&[], h, &[at, u32::from(byte)]),
            Call::List(at) => vec![at as u64],
            Call::Check | Call::Sweep => Vec::new(),
        }
    }
}

impl fmt::Display for Call {
    /// Writes the call's name and its numbers.
    fn fmt(&self, f: &mut fmt::Formatter<'_>) -> fmt::Result {
        write!(f, "{}", Call::NAMES[self.kind()])?;
        for number in self.numbers() {
            write!(f, " {number}")?;
        }
        Ok(())
    }
}

impl Answer {
    /// Makes the answer of an accepted call.
    pub fn accepted(numbers: &[u64]) -> Answer {
        let mut all = [0; 4];
        all[..numbers.len()].copy_from_slice(numbers);
        Answer {
            refusal: 0,
            numbers: all,
        }
    }

    /// Makes a refusal.
    pub fn refused(number: u32) -> Answer {
        Answer {
            refusal: number,
            numbers: [0; 4],
        }
    }

    /// Tells whether the call was accepted.
    pub fn is_accepted(&self) -> bool {
        self.refusal == 0
    }

    /// Reads the numbers as a handle.
    pub fn handle(&self) -> Handle {
        let [base, length, serial, _] = self.numbers.map(|number| number as u32);
        Handle {
            base,
            length,
            serial,
        }
    }
}

/// Makes an answer of a result of the reference.
fn answer<T>(result: Result<T, Refusal>, numbers: impl FnOnce(T) -> Vec<u64>) -> Answer {
    match result {
        Ok(value) => Answer::accepted(&numbers(value)),
        Err(refusal) => Answer::refused(u32::from(refusal.number())),
    }
}

/// Gives the numbers of a handle.
fn handle_numbers(handle: Handle) -> Vec<u64> {
    [handle.base, handle.length, handle.serial]
        .map(u64::from)
        .to_vec()
}

/// Gives the numbers of a listed block: 1 and the block, or nothing.
fn block_numbers(block: Option<Block>) -> Vec<u64> {
    let numbers = block.map(|b| [1, b.offset, b.size, b.serial].map(u64::from).to_vec());
    numbers.unwrap_or_default()
}

/// Gives an amount as the numbers of an answer.
fn amount(amount: u32) -> Vec<u64> {
    vec![u64::from(amount)]
}

/// Gives the reference's options of an opening.
fn options(choice: Choice) -> Options {
    Options {
        kind: match choice.kind {
            0 => Kind::Plain,
            _ => Kind::Quarantine,
        },
        edition: match choice.edition {
            0 => Edition::First,
            _ => Edition::Second,
        },
    }
}

impl State {
    /// Makes a call by the reference.
    pub fn perform(&mut self, call: Call) -> Answer {
        let State { heap, accounts } = self;
        match call {
            Call::Open(grants, choice) => {
                let (opened, result) = open_with(heap, grants, options(choice));
                *accounts = opened;
                answer(result, |()| Vec::new())
            }
            Call::Allocate(q, n) => answer(allocate(heap, accounts, q, n), handle_numbers),
            Call::Array(q, n, s) => answer(allocate_array(heap, accounts, q, n, s), handle_numbers),
            Call::Claim(q, h) => answer(claim(heap, accounts, q, h), amount),
            Call::Release(q, h) => answer(release(heap, accounts, q, h), amount),
            Call::FreeAll(q) => answer(free_all(heap, accounts, q), amount),
            Call::Reallocate(q, h, n) => {
                answer(reallocate(heap, accounts, q, h, n), handle_numbers)
            }
            Call::Lend(h) => answer(lend(heap, accounts, h), |part| {
                vec![part.start as u64, part.end as u64]
            }),
            Call::Write(h, at, byte) => self.write(h, at, byte),
            Call::Remaining(q) => answer(remaining(heap, accounts, q), amount),
            Call::CanRelease(q, h) => answer(can_release(heap, accounts, q, h), |()| Vec::new()),
            Call::List(at) => answer(block_at(heap, accounts, at), block_numbers),
            Call::Check => answer(check(heap, accounts), |()| Vec::new()),
            Call::ClearPermissions(q, n) => answer(clear_permissions(heap, accounts, q, n), amount),
            Call::Sweep => answer(sweep(heap, accounts), amount),
        }
    }

    /// Writes one byte of a lent object; a place behind the object writes nothing.
    fn write(&mut self, handle: Handle, at: u32, byte: u8) -> Answer {
        answer(lend_mut(&mut self.heap, &self.accounts, handle), |part| {
            if let Some(place) = part.get_mut(at as usize) {
                *place = byte;
            }
            Vec::new()
        })
    }
}
