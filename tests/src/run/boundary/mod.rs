//! The exported boundary of the proved calls: its declarations and safe functions over them.
//!
//! This folder alone has unsafe code. The structs have the layout of the crate `exports`: all
//! `repr(C)`; a lent heap is a pointer and a length, accounts are a pointer. What is taken for
//! reading only gets a pointer made from a mutable borrow, so that comparing it afterwards would see
//! a write.

use lokhazim_reference::{Accounts, Handle, HOLDS, QUOTAS};

use crate::state::Answer;

pub mod calls;
pub mod images;
pub mod queue;
pub mod report;
pub mod settings;
pub mod statistics;

/// A quota as it crosses the boundary.
#[repr(C)]
#[derive(Clone, Copy)]
struct CQuota {
    grant: u32,
    remainder: u32,
    permissions: u8,
}

/// A hold record as it crosses the boundary.
#[repr(C)]
#[derive(Clone, Copy)]
struct CHold {
    serial: u32,
    quota: u8,
    count: u8,
}

/// The accounts as they cross the boundary.
#[repr(C)]
#[derive(Clone, Copy)]
struct CAccounts {
    quotas: [CQuota; QUOTAS],
    last_serial: u32,
    holds: [CHold; HOLDS],
    kind: u8,
    edition: u8,
}

/// A handle as it crosses the boundary.
#[repr(C)]
#[derive(Clone, Copy)]
struct CHandle {
    base: u32,
    length: u32,
    serial: u32,
}

/// The grants of an opening.
#[repr(C)]
#[derive(Clone, Copy)]
struct CGrants {
    values: [u32; QUOTAS],
}

/// What a call gives back that makes or gives a handle.
#[repr(C)]
struct HandleReply {
    refusal: u32,
    handle: CHandle,
}

/// What a call gives back that answers an amount.
#[repr(C)]
struct AmountReply {
    refusal: u32,
    amount: u32,
}

/// What lend gives back.
#[repr(C)]
struct RangeReply {
    refusal: u32,
    start: usize,
    end: usize,
}

/// What a step of the listing gives back; `found` is 1 where a block is given.
#[repr(C)]
struct BlockReply {
    refusal: u32,
    found: u32,
    offset: usize,
    size: usize,
    serial: u32,
}

impl From<&Accounts> for CAccounts {
    fn from(accounts: &Accounts) -> CAccounts {
        CAccounts {
            quotas: accounts.quotas.map(|quota| CQuota {
                grant: quota.grant,
                remainder: quota.remainder,
                permissions: quota.permissions,
            }),
            last_serial: accounts.last_serial,
            holds: accounts.holds.map(|hold| CHold {
                serial: hold.serial,
                quota: hold.quota,
                count: hold.count,
            }),
            kind: accounts.kind,
            edition: accounts.edition,
        }
    }
}

impl From<Handle> for CHandle {
    fn from(handle: Handle) -> CHandle {
        CHandle {
            base: handle.base,
            length: handle.length,
            serial: handle.serial,
        }
    }
}

impl CHandle {
    /// Gives the numbers as they stand in an answer.
    fn numbers(self) -> [u64; 3] {
        [self.base, self.length, self.serial].map(u64::from)
    }
}

impl HandleReply {
    /// Gives the numbers as an answer.
    fn answer(self) -> Answer {
        numbers(self.refusal, &self.handle.numbers())
    }
}

impl AmountReply {
    /// Gives the numbers as an answer.
    fn answer(self) -> Answer {
        numbers(self.refusal, &[u64::from(self.amount)])
    }
}

impl RangeReply {
    /// Gives the numbers as an answer.
    fn answer(self) -> Answer {
        numbers(self.refusal, &[self.start as u64, self.end as u64])
    }
}

impl BlockReply {
    /// Gives the numbers as an answer.
    fn answer(self) -> Answer {
        let (offset, size) = (self.offset as u64, self.size as u64);
        let block = [u64::from(self.found), offset, size, u64::from(self.serial)];
        numbers(self.refusal, &block)
    }
}

/// Makes an answer of a reply's numbers as they came, also where the call was refused.
fn numbers(refusal: u32, numbers: &[u64]) -> Answer {
    Answer {
        refusal,
        ..Answer::accepted(numbers)
    }
}
