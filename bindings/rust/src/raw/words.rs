//! The accounts as the words that the calls in place read and write.

use core::mem::{align_of, size_of};

use crate::layout::Accounts;

/// The accounts of a heap, as words. Where a struct of [`Accounts`] has padding, words have bytes
/// like any others: the library reads them with the rest of their word, and they have a value.
#[repr(transparent)]
pub struct Words(pub(super) [u32; size_of::<Accounts>() / size_of::<u32>()]);

const _: () = assert!(size_of::<Words>() == size_of::<Accounts>());
const _: () = assert!(align_of::<Words>() == align_of::<Accounts>());

impl Words {
    /// Zeros, which an opening sets.
    pub const ZERO: Words = Words([0; size_of::<Accounts>() / size_of::<u32>()]);

    /// The accounts where they lie.
    pub fn accounts(&self) -> &Accounts {
        // SAFETY: the words have the size and the alignment of the accounts, which are numbers
        // alone, so that any bytes will do.
        unsafe { &*(&raw const *self).cast::<Accounts>() }
    }

    /// The same, to set each number by itself: a struct that is set as a whole would leave its padding
    /// without a value.
    fn numbers(&mut self) -> &mut Accounts {
        // SAFETY: as above, and the words are borrowed as long as the accounts.
        unsafe { &mut *(&raw mut *self).cast::<Accounts>() }
    }
}

impl From<&Accounts> for Words {
    /// Sets each number, and padding to zero.
    fn from(accounts: &Accounts) -> Words {
        let mut words = Words::ZERO;
        let numbers = words.numbers();
        for (to, from) in numbers.quotas.iter_mut().zip(&accounts.quotas) {
            to.grant = from.grant;
            to.remainder = from.remainder;
            to.permissions = from.permissions;
        }
        numbers.last_serial = accounts.last_serial;
        for (to, from) in numbers.holds.iter_mut().zip(&accounts.holds) {
            to.serial = from.serial;
            to.quota = from.quota;
            to.count = from.count;
        }
        numbers.kind = accounts.kind;
        numbers.edition = accounts.edition;
        words
    }
}
