//! The heap with its accounts, and the calls that change them.

use core::fmt;

use crate::layout::{AmountReply, Grants, Handle, HandleReply, QuotaId, QUOTAS};
use crate::opening::Options;
use crate::permissions::Permissions;
use crate::raw::{self, Words};
use crate::refusal::{verdict, Refusal};

/// A heap that parts of a program share, each with its own quota.
///
/// It owns the lent bytes together with their accounts, so that one can't be used with another's.
/// The accounts are 4,488 bytes of it, which calls read and write in place.
/// A quota is named by its [`QuotaId`]; calls refuse numbers from [`QUOTAS`] on. Every call checks the whole
/// heap first, so any of them can give [`Refusal::Inconsistent`]; it is proved that none does
/// unless something outside of this type has written to the bytes.
///
/// The bytes belong to the heap as long as it lives:
///
/// ```compile_fail,E0506
/// let mut memory = [0; 128];
/// let heap = lokhazim::Heap::open(&mut memory, [0; lokhazim::QUOTAS])?;
/// memory[0] = 1;
/// heap.check()?;
/// # Ok::<(), lokhazim::Refusal>(())
/// ```
pub struct Heap<'a> {
    pub(crate) bytes: &'a mut [u8],
    pub(crate) words: Words,
}

impl<'a> Heap<'a> {
    /// Clears the bytes and gives each quota its grant and all permissions. The heap is plain and of
    /// the first edition; for others see [`open_with`](Heap::open_with).
    ///
    /// The bytes are a multiple of 8 from 64 to 32,768. Put them into [`Aligned`](crate::Aligned)
    /// where the addresses of objects have to be aligned.
    ///
    /// # Errors
    ///
    /// [`Refusal::HeapLength`]; the bytes are as they were.
    ///
    /// ```
    /// use lokhazim::{Heap, Refusal, QUOTAS};
    ///
    /// let mut memory = [7; 65];
    /// assert!(Heap::open(&mut memory[..64], [100; QUOTAS]).is_ok());
    /// assert_eq!(Heap::open(&mut memory, [100; QUOTAS]).unwrap_err(), Refusal::HeapLength);
    /// ```
    pub fn open(bytes: &'a mut [u8], grants: [u32; QUOTAS]) -> Result<Heap<'a>, Refusal> {
        Heap::open_with(bytes, grants, Options::default())
    }

    /// Clears the bytes and gives each quota its grant and all permissions, with these options.
    ///
    /// # Errors
    ///
    /// [`Refusal::HeapLength`]; the bytes are as they were.
    ///
    /// ```
    /// use lokhazim::{Edition, Heap, Kind, Options, QUOTAS};
    ///
    /// let mut memory = [7; 128];
    /// let options = Options { kind: Kind::Quarantine, edition: Edition::Second };
    /// let heap = Heap::open_with(&mut memory, [100; QUOTAS], options)?;
    /// assert_eq!(heap.kind(), Kind::Quarantine);
    /// assert_eq!(heap.edition(), Edition::Second);
    /// # Ok::<(), lokhazim::Refusal>(())
    /// ```
    pub fn open_with(
        bytes: &'a mut [u8],
        grants: [u32; QUOTAS],
        options: Options,
    ) -> Result<Heap<'a>, Refusal> {
        let kind = u32::from(options.kind.number());
        let edition = u32::from(options.edition.number());
        let mut words = Words::ZERO;
        let grants = Grants { values: grants };
        verdict(raw::open(bytes, &mut words, grants, kind, edition))?;
        Ok(Heap { bytes, words })
    }

    /// Makes an object of at least `length` bytes, all zero, that the quota holds once.
    ///
    /// The object has the next multiple of its unit, and its base is a multiple of the unit of
    /// the rounded length. In the first edition the unit is 8, from 8,192 bytes on 16, from 16,384
    /// on 32. In the second it is 8, from 4,089 on 16, from 8,177 on 32, from 16,353 on 64 (see
    /// [`Edition`](crate::Edition)). The quota pays the rounded length plus 8.
    ///
    /// # Errors
    ///
    /// [`Refusal::QuotaNumber`], [`Refusal::NotPermitted`], [`Refusal::ObjectLength`],
    /// [`Refusal::QuotaExceeded`], [`Refusal::HoldsExhausted`], [`Refusal::SerialsExhausted`],
    /// [`Refusal::NoSpace`], checked in this order.
    ///
    /// ```
    /// use lokhazim::{grants, Heap, QuotaId, Refusal};
    ///
    /// # let mut memory = [0; 128];
    /// let mut heap = Heap::open(&mut memory, grants([100]))?;
    /// let handle = heap.allocate(QuotaId::new(0), 10)?;
    /// assert_eq!((handle.base, handle.length), (8, 16));
    /// assert_eq!(heap.allocate(QuotaId::new(0), 68), Err(Refusal::QuotaExceeded));
    /// assert_eq!(heap.remaining(QuotaId::new(0))?, 76);
    ///
    /// # let mut memory = [0; 16_384];
    /// # let mut heap = Heap::open(&mut memory, grants([10_000]))?;
    /// let handle = heap.allocate(QuotaId::new(0), 8_185)?; // 8,192 bytes, so at a multiple of 16
    /// assert_eq!((handle.base, handle.length), (16, 8_192));
    /// # Ok::<(), Refusal>(())
    /// ```
    pub fn allocate(&mut self, quota: QuotaId, length: u32) -> Result<Handle, Refusal> {
        given(raw::allocate(
            self.bytes,
            &mut self.words,
            quota.number(),
            length,
        ))
    }

    /// Makes an object for `count` elements of `size` bytes; their product is never cut to 32 bits.
    ///
    /// # Errors
    ///
    /// As of [`allocate`](Heap::allocate).
    ///
    /// ```
    /// use lokhazim::{Heap, QuotaId, Refusal, QUOTAS};
    ///
    /// # let mut memory = [0; 128];
    /// let mut heap = Heap::open(&mut memory, [100; QUOTAS])?;
    /// assert_eq!(heap.allocate_array(QuotaId::new(0), 5, 12)?.length, 64);
    /// assert_eq!(heap.allocate_array(QuotaId::new(0), 65_536, 65_536), Err(Refusal::ObjectLength));
    /// # Ok::<(), Refusal>(())
    /// ```
    pub fn allocate_array(
        &mut self,
        quota: QuotaId,
        count: u32,
        size: u32,
    ) -> Result<Handle, Refusal> {
        given(raw::allocate_array(
            self.bytes,
            &mut self.words,
            quota.number(),
            count,
            size,
        ))
    }

    /// Lets the quota hold the object, or hold it once more; gives the object's length.
    ///
    /// The first hold costs the quota the object's length plus 8, a further one nothing. The object
    /// stays until every quota has dropped every hold on it. A handle of a part holds the whole
    /// object, and costs as much.
    ///
    /// # Errors
    ///
    /// [`Refusal::QuotaNumber`], [`Refusal::NotPermitted`], [`Refusal::NoSuchObject`],
    /// [`Refusal::CountLimit`], [`Refusal::QuotaExceeded`], [`Refusal::HoldsExhausted`], checked in
    /// this order.
    ///
    /// ```
    /// use lokhazim::QuotaId;
    ///
    /// # let mut memory = [0; 128];
    /// let mut heap = lokhazim::Heap::open(&mut memory, [100; lokhazim::QUOTAS])?;
    /// let handle = heap.allocate(QuotaId::new(0), 10)?;
    /// assert_eq!(heap.claim(QuotaId::new(1), handle)?, 16);
    /// heap.release(QuotaId::new(0), handle)?;
    /// assert!(heap.lend(handle).is_ok());
    /// # Ok::<(), lokhazim::Refusal>(())
    /// ```
    pub fn claim(&mut self, quota: QuotaId, handle: Handle) -> Result<u32, Refusal> {
        amount(raw::claim(
            self.bytes,
            &mut self.words,
            quota.number(),
            handle,
        ))
    }

    /// Drops one hold of the quota; gives what the quota gets back, 0 while it still holds the
    /// object.
    ///
    /// An object that nobody holds any more is cleared; its bytes are free, or wait for a
    /// [`sweep`](Heap::sweep) in a heap with quarantine. A handle of a part drops the hold on the
    /// whole object.
    ///
    /// # Errors
    ///
    /// [`Refusal::QuotaNumber`], [`Refusal::NoSuchObject`], [`Refusal::NotHeld`], checked in this
    /// order.
    ///
    /// ```
    /// use lokhazim::{Heap, QuotaId, Refusal, QUOTAS};
    ///
    /// # let mut memory = [0; 128];
    /// let mut heap = Heap::open(&mut memory, [100; QUOTAS])?;
    /// let handle = heap.allocate(QuotaId::new(0), 10)?;
    /// assert_eq!(heap.release(QuotaId::new(1), handle), Err(Refusal::NotHeld));
    /// assert_eq!(heap.release(QuotaId::new(0), handle)?, 24);
    /// assert_eq!(heap.release(QuotaId::new(0), handle), Err(Refusal::NoSuchObject));
    /// # Ok::<(), Refusal>(())
    /// ```
    pub fn release(&mut self, quota: QuotaId, handle: Handle) -> Result<u32, Refusal> {
        amount(raw::release(
            self.bytes,
            &mut self.words,
            quota.number(),
            handle,
        ))
    }

    /// Drops every hold of the quota; gives what the quota gets back.
    ///
    /// # Errors
    ///
    /// [`Refusal::QuotaNumber`], then [`Refusal::NotPermitted`].
    ///
    /// ```
    /// use lokhazim::QuotaId;
    ///
    /// # let mut memory = [0; 128];
    /// let mut heap = lokhazim::Heap::open(&mut memory, [100; lokhazim::QUOTAS])?;
    /// heap.allocate(QuotaId::new(0), 10)?;
    /// heap.allocate(QuotaId::new(0), 20)?;
    /// assert_eq!(heap.free_all(QuotaId::new(0))?, 24 + 32);
    /// assert_eq!(heap.remaining(QuotaId::new(0))?, 100);
    /// # Ok::<(), lokhazim::Refusal>(())
    /// ```
    pub fn free_all(&mut self, quota: QuotaId) -> Result<u32, Refusal> {
        amount(raw::free_all(self.bytes, &mut self.words, quota.number()))
    }

    /// Clears permissions of the quota; gives those that it still has.
    ///
    /// A part can so lend its quota to a helper that may release objects and not drop them all. No
    /// call gives a permission back; an opening sets them all, and an image that is read those that
    /// were set in it.
    ///
    /// # Errors
    ///
    /// [`Refusal::QuotaNumber`].
    ///
    /// ```
    /// use lokhazim::{Heap, Permissions, QuotaId, Refusal, QUOTAS};
    ///
    /// # let mut memory = [0; 128];
    /// let mut heap = Heap::open(&mut memory, [100; QUOTAS])?;
    /// let handle = heap.allocate(QuotaId::new(0), 10)?;
    /// let left = heap.clear_permissions(QuotaId::new(0), Permissions::ALLOCATE | Permissions::FREE_ALL)?;
    /// assert_eq!(left, Permissions::CLAIM);
    /// assert_eq!(heap.free_all(QuotaId::new(0)), Err(Refusal::NotPermitted));
    /// assert_eq!(heap.allocate(QuotaId::new(0), 10), Err(Refusal::NotPermitted));
    /// assert_eq!(heap.release(QuotaId::new(0), handle)?, 24);
    /// # Ok::<(), Refusal>(())
    /// ```
    pub fn clear_permissions(
        &mut self,
        quota: QuotaId,
        cleared: Permissions,
    ) -> Result<Permissions, Refusal> {
        let bits = u32::from(cleared.bits());
        amount(raw::clear_permissions(
            self.bytes,
            &mut self.words,
            quota.number(),
            bits,
        ))
        .map(Permissions::left)
    }

    /// Makes an object of another length with the old one's bytes, as far as they fit, then drops
    /// one hold on the old one.
    ///
    /// Both objects count at once, so quota and heap need room for both. The old object stays if
    /// anything else still holds it. The handle is the whole object's; one that was made narrower
    /// gives [`Refusal::NoSuchObject`].
    ///
    /// # Errors
    ///
    /// [`Refusal::QuotaNumber`], [`Refusal::NotPermitted`], [`Refusal::ObjectLength`],
    /// [`Refusal::NoSuchObject`], [`Refusal::NotHeld`], [`Refusal::QuotaExceeded`],
    /// [`Refusal::HoldsExhausted`], [`Refusal::SerialsExhausted`], [`Refusal::NoSpace`], checked in
    /// this order; the old object is as it was.
    ///
    /// ```
    /// use lokhazim::QuotaId;
    ///
    /// # let mut memory = [0; 128];
    /// let mut heap = lokhazim::Heap::open(&mut memory, [100; lokhazim::QUOTAS])?;
    /// let handle = heap.allocate(QuotaId::new(0), 8)?;
    /// heap.lend_mut(handle)?.copy_from_slice(b"pressure");
    /// let longer = heap.reallocate(QuotaId::new(0), handle, 16)?;
    /// assert_eq!(heap.lend(longer)?, b"pressure\0\0\0\0\0\0\0\0");
    /// assert!(heap.lend(handle).is_err());
    /// # Ok::<(), lokhazim::Refusal>(())
    /// ```
    pub fn reallocate(
        &mut self,
        quota: QuotaId,
        handle: Handle,
        length: u32,
    ) -> Result<Handle, Refusal> {
        given(raw::reallocate(
            self.bytes,
            &mut self.words,
            quota.number(),
            handle,
            length,
        ))
    }

    /// Makes every quarantined block free and joins neighbours that are free; gives the sum of their
    /// sizes in bytes, headers included.
    ///
    /// Quotas get nothing back, as they did when the objects were released. In a plain heap, and
    /// where no block waits, it gives 0 and changes nothing.
    ///
    /// # Errors
    ///
    /// None but [`Refusal::Inconsistent`].
    ///
    /// ```
    /// use lokhazim::{grants, Heap, Kind, Options, QuotaId, Refusal};
    ///
    /// # let mut memory = [0; 128];
    /// let options = Options { kind: Kind::Quarantine, ..Options::default() };
    /// let mut heap = Heap::open_with(&mut memory, grants([200]), options)?;
    /// heap.allocate(QuotaId::new(0), 40)?;
    /// heap.allocate(QuotaId::new(0), 72)?;
    /// assert_eq!(heap.free_all(QuotaId::new(0))?, 128);
    /// assert_eq!(heap.allocate(QuotaId::new(0), 8), Err(Refusal::NoSpace));
    /// assert_eq!(heap.sweep()?, 128);
    /// assert_eq!(heap.sweep()?, 0);
    /// assert_eq!(heap.allocate(QuotaId::new(0), 120)?.base, 8);
    /// # Ok::<(), Refusal>(())
    /// ```
    pub fn sweep(&mut self) -> Result<u32, Refusal> {
        amount(raw::sweep(self.bytes, &self.words))
    }
}

/// The handle that a reply gives.
fn given(reply: HandleReply) -> Result<Handle, Refusal> {
    verdict(reply.refusal).map(|()| reply.handle)
}

/// The amount that a reply gives.
pub(crate) fn amount(reply: AmountReply) -> Result<u32, Refusal> {
    verdict(reply.refusal).map(|()| reply.amount)
}

impl fmt::Debug for Heap<'_> {
    /// Shows the number of bytes and the accounts.
    fn fmt(&self, f: &mut fmt::Formatter<'_>) -> fmt::Result {
        f.debug_struct("Heap")
            .field("length", &self.bytes.len())
            .field("accounts", self.accounts())
            .finish()
    }
}
