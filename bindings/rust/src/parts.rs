//! A heap taken up from its bytes and its accounts, and given back as these.

use crate::heap::Heap;
use crate::layout::Accounts;
use crate::raw::{self, Words};
use crate::refusal::{verdict, Refusal};

impl<'a> Heap<'a> {
    /// Takes up a heap that was opened before, here or in C, with the accounts that belong to it.
    ///
    /// # Errors
    ///
    /// [`Refusal::HeapLength`] or [`Refusal::Inconsistent`]; the bytes are as they were.
    ///
    /// ```
    /// use lokhazim::{Heap, QuotaId, Refusal, QUOTAS};
    ///
    /// let mut memory = [0; 128];
    /// let mut heap = Heap::open(&mut memory, [100; QUOTAS])?;
    /// let handle = heap.allocate(QuotaId::new(0), 10)?;
    /// let (bytes, accounts) = heap.into_parts();
    ///
    /// let mut other = [0; 128];
    /// let mixed_up = Heap::from_parts(&mut other, &accounts);
    /// assert_eq!(mixed_up.unwrap_err(), Refusal::Inconsistent);
    ///
    /// let heap = Heap::from_parts(bytes, &accounts)?;
    /// assert_eq!(heap.lend(handle)?.len(), 16);
    /// # Ok::<(), Refusal>(())
    /// ```
    pub fn from_parts(bytes: &'a mut [u8], accounts: &Accounts) -> Result<Heap<'a>, Refusal> {
        let words = Words::from(accounts);
        verdict(raw::check(bytes, &words))?;
        Ok(Heap { bytes, words })
    }

    /// The bytes and the accounts that belong to them, to be read.
    #[must_use]
    pub fn parts(&self) -> (&[u8], &Accounts) {
        (self.bytes, self.accounts())
    }

    /// Gives the bytes back, with the accounts that belong to them.
    #[must_use]
    pub fn into_parts(self) -> (&'a mut [u8], Accounts) {
        (self.bytes, self.words.accounts().clone())
    }

    /// The accounts: each quota's grant, remainder and permissions, the last serial, the hold
    /// records, the kind and the edition.
    ///
    /// ```
    /// use lokhazim::QuotaId;
    ///
    /// # let mut memory = [0; 128];
    /// let mut heap = lokhazim::Heap::open(&mut memory, [100; lokhazim::QUOTAS])?;
    /// heap.allocate(QuotaId::new(3), 10)?;
    /// assert_eq!(heap.accounts().quotas[3].remainder, 76);
    /// assert_eq!(heap.accounts().holds[0].quota, 3);
    /// # Ok::<(), lokhazim::Refusal>(())
    /// ```
    #[must_use]
    pub fn accounts(&self) -> &Accounts {
        self.words.accounts()
    }
}
