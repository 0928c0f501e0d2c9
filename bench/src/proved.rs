//! A heap of the proved calls, by the Rust crate over their library.

pub use lokhazim::Accounts;
use lokhazim::{Heap, QuotaId, Refusal};
use lokhazim_reference::{Handle, QUOTAS};

use crate::engine::{buffer, refused, Engine};
use crate::plan::GRANT;

/// A heap of the proved calls. It is missing only while its bytes are looked at.
pub struct Proved(Option<Heap<'static>>);

impl Proved {
    /// Opens a heap.
    pub fn open() -> Proved {
        let opened = Heap::open(buffer(), [GRANT; QUOTAS]);
        Proved(Some(accepted("open", opened)))
    }

    /// Takes up a heap again.
    pub fn from_parts(bytes: &'static mut [u8], accounts: Accounts) -> Proved {
        Proved(Some(accepted("check", Heap::from_parts(bytes, &accounts))))
    }

    /// Gives the bytes back, with the accounts.
    pub fn into_parts(self) -> (&'static mut [u8], Accounts) {
        self.0.expect("the heap is put back").into_parts()
    }

    /// Checks the heap.
    #[inline(never)]
    pub fn call_check(&mut self) {
        accepted("check", self.get().check());
    }

    /// Gives the heap.
    #[inline(always)]
    fn get(&mut self) -> &mut Heap<'static> {
        self.0.as_mut().expect("the heap is put back")
    }
}

/// Gives an accepted call's answer.
#[inline(always)]
fn accepted<A>(call: &str, answer: Result<A, Refusal>) -> A {
    answer.unwrap_or_else(|refusal| refused(call, &refusal))
}

/// Gives a handle as the crate has it.
#[inline(always)]
fn to_proved(handle: Handle) -> lokhazim::Handle {
    let Handle {
        base,
        length,
        serial,
    } = handle;
    lokhazim::Handle {
        base,
        length,
        serial,
    }
}

/// Gives a handle as the plan's runner has it.
#[inline(always)]
fn from_proved(handle: lokhazim::Handle) -> Handle {
    let lokhazim::Handle {
        base,
        length,
        serial,
    } = handle;
    Handle {
        base,
        length,
        serial,
    }
}

impl Engine for Proved {
    #[inline(never)]
    fn call_allocate(&mut self, quota: u32, length: u32) -> Handle {
        from_proved(accepted(
            "allocate",
            self.get().allocate(QuotaId::new(quota), length),
        ))
    }

    #[inline(never)]
    fn call_release(&mut self, quota: u32, handle: Handle) -> u32 {
        accepted(
            "release",
            self.get().release(QuotaId::new(quota), to_proved(handle)),
        )
    }

    #[inline(never)]
    fn call_claim(&mut self, quota: u32, handle: Handle) -> u32 {
        accepted(
            "claim",
            self.get().claim(QuotaId::new(quota), to_proved(handle)),
        )
    }

    #[inline(never)]
    fn call_reallocate(&mut self, quota: u32, handle: Handle, length: u32) -> Handle {
        let answer = self
            .get()
            .reallocate(QuotaId::new(quota), to_proved(handle), length);
        from_proved(accepted("reallocate", answer))
    }

    #[inline(never)]
    fn hold(&mut self, quota: u32, handle: Handle) {
        accepted(
            "claim",
            self.get().claim(QuotaId::new(quota), to_proved(handle)),
        );
    }

    #[inline(never)]
    fn drop_hold(&mut self, quota: u32, handle: Handle) {
        accepted(
            "release",
            self.get().release(QuotaId::new(quota), to_proved(handle)),
        );
    }

    fn look<A>(&mut self, look: impl FnOnce(&mut [u8]) -> A) -> A {
        let heap = self.0.take().expect("the heap is put back");
        let (bytes, accounts) = heap.into_parts();
        let seen = look(bytes);
        self.0 = Some(accepted("check", Heap::from_parts(bytes, &accounts)));
        seen
    }
}

#[cfg(test)]
mod tests {
    use super::*;
    use crate::engine::clearing;

    #[test]
    fn the_proved_calls_clear_at_both_ends() {
        let said = clearing(&mut Proved::open());
        assert_eq!(said, "cleared at allocate and at release");
    }
}
