//! A heap under measurement, and the reference as one.
//!
//! The names `call_...` are those that the instruction counts look for, in C too: each is never
//! inlined and holds one whole call, with all that a caller pays to make it.

use std::fmt::Display;

use lokhazim::Aligned;
use lokhazim_reference::{self as reference, Accounts, Handle, Refusal, QUOTAS};

use crate::plan::{GRANT, HEAP_BYTES};

/// A heap with its accounts. A refused call stops the program.
pub trait Engine {
    /// Allocates an object.
    fn call_allocate(&mut self, quota: u32, length: u32) -> Handle;
    /// Releases an object and gives what the quota gets back.
    fn call_release(&mut self, quota: u32, handle: Handle) -> u32;
    /// Claims an object and gives its length.
    fn call_claim(&mut self, quota: u32, handle: Handle) -> u32;
    /// Reallocates an object.
    fn call_reallocate(&mut self, quota: u32, handle: Handle, length: u32) -> Handle;
    /// Lets a quota hold an object: a claim that is not measured.
    fn hold(&mut self, quota: u32, handle: Handle);
    /// Takes a hold back: a release that is not measured.
    fn drop_hold(&mut self, quota: u32, handle: Handle);
    /// Looks at the heap's bytes, or changes them where no rule names them.
    fn look<A>(&mut self, look: impl FnOnce(&mut [u8]) -> A) -> A;
}

/// Gives new bytes for a heap, on an address that suits every object. They are never given back.
pub fn buffer() -> &'static mut [u8] {
    &mut Box::leak(Box::new(Aligned([0; HEAP_BYTES]))).0
}

/// Stops the program at a refusal, which no plan should meet.
#[cold]
pub fn refused(call: &str, refusal: &dyn Display) -> ! {
    panic!("{call} was refused ({refusal}): the plan no longer fits the heap. Lower LONGEST in bench/src/plan.rs.")
}

/// A heap of the reference.
pub struct Reference {
    bytes: &'static mut [u8],
    accounts: Accounts,
}

impl Reference {
    /// Opens a heap.
    pub fn open() -> Reference {
        let bytes = buffer();
        let (accounts, opened) = reference::open(bytes, [GRANT; QUOTAS]);
        accepted("open", opened);
        Reference { bytes, accounts }
    }
}

/// Gives an accepted call's answer.
#[inline(always)]
fn accepted<A>(call: &str, answer: Result<A, Refusal>) -> A {
    answer.unwrap_or_else(|refusal| refused(call, &refusal))
}

impl Engine for Reference {
    #[inline(never)]
    fn call_allocate(&mut self, quota: u32, length: u32) -> Handle {
        let answer = reference::allocate(self.bytes, &mut self.accounts, quota, length);
        accepted("allocate", answer)
    }

    #[inline(never)]
    fn call_release(&mut self, quota: u32, handle: Handle) -> u32 {
        let answer = reference::release(self.bytes, &mut self.accounts, quota, handle);
        accepted("release", answer)
    }

    #[inline(never)]
    fn call_claim(&mut self, quota: u32, handle: Handle) -> u32 {
        let answer = reference::claim(self.bytes, &mut self.accounts, quota, handle);
        accepted("claim", answer)
    }

    #[inline(never)]
    fn call_reallocate(&mut self, quota: u32, handle: Handle, length: u32) -> Handle {
        let (bytes, accounts) = (&mut *self.bytes, &mut self.accounts);
        let answer = reference::reallocate(bytes, accounts, quota, handle, length);
        accepted("reallocate", answer)
    }

    #[inline(never)]
    fn hold(&mut self, quota: u32, handle: Handle) {
        let answer = reference::claim(self.bytes, &mut self.accounts, quota, handle);
        accepted("claim", answer);
    }

    #[inline(never)]
    fn drop_hold(&mut self, quota: u32, handle: Handle) {
        let answer = reference::release(self.bytes, &mut self.accounts, quota, handle);
        accepted("release", answer);
    }

    fn look<A>(&mut self, look: impl FnOnce(&mut [u8]) -> A) -> A {
        look(self.bytes)
    }
}

/// Says whether a heap clears an object's bytes at allocate and at release.
pub fn clearing(engine: &mut impl Engine) -> &'static str {
    let handle = engine.call_allocate(0, 64);
    let object = handle.base as usize..(handle.base + handle.length) as usize;
    let is_clear = |bytes: &[u8]| bytes.iter().all(|byte| *byte == 0);
    engine.look(|bytes| bytes[object.clone()].fill(0xFF));
    engine.call_release(0, handle);
    let at_release = engine.look(|bytes| is_clear(&bytes[object.clone()]));
    engine.look(|bytes| bytes[object.clone()].fill(0xFF));
    engine.call_allocate(0, 64);
    let at_allocate = engine.look(|bytes| is_clear(&bytes[object.clone()]));
    match (at_allocate, at_release) {
        (true, true) => "cleared at allocate and at release",
        (true, false) => "cleared at allocate, not at release",
        (false, true) => "cleared at release, not at allocate",
        (false, false) => "not cleared",
    }
}

#[cfg(test)]
mod tests {
    use super::*;

    #[test]
    fn the_reference_clears_at_both_ends() {
        let said = clearing(&mut Reference::open());
        assert_eq!(said, "cleared at allocate and at release");
    }
}
