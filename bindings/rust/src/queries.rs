//! The calls that leave blocks and accounts as they are.

use crate::blocks::{Block, Blocks};
use crate::heap::{amount, Heap};
use crate::layout::{Handle, QuotaId};
use crate::opening::{Edition, Kind};
use crate::permissions::Permissions;
use crate::raw;
use crate::refusal::{verdict, Refusal};

impl Heap<'_> {
    /// Lends the handle's bytes to be read: the object's, or those of the part that a
    /// [narrowed](Handle::narrowed) handle has.
    ///
    /// # Errors
    ///
    /// [`Refusal::NoSuchObject`].
    ///
    /// ```
    /// use lokhazim::QuotaId;
    ///
    /// # let mut memory = [0; 128];
    /// let mut heap = lokhazim::Heap::open(&mut memory, [100; lokhazim::QUOTAS])?;
    /// let handle = heap.allocate(QuotaId::new(0), 10)?;
    /// assert_eq!(heap.lend(handle)?, [0; 16]);
    /// # Ok::<(), lokhazim::Refusal>(())
    /// ```
    pub fn lend(&self, handle: Handle) -> Result<&[u8], Refusal> {
        let range = raw::lend(self.bytes, &self.words, handle);
        verdict(range.refusal)?;
        Ok(&self.bytes[range.start..range.end])
    }

    /// Lends the handle's bytes to be read and written. No other call is possible meanwhile:
    ///
    /// ```compile_fail,E0499
    /// use lokhazim::QuotaId;
    ///
    /// # let mut memory = [0; 128];
    /// let mut heap = lokhazim::Heap::open(&mut memory, [100; lokhazim::QUOTAS])?;
    /// let handle = heap.allocate(QuotaId::new(0), 10)?;
    /// let object = heap.lend_mut(handle)?;
    /// heap.release(QuotaId::new(0), handle)?;
    /// object[0] = 1;
    /// # Ok::<(), lokhazim::Refusal>(())
    /// ```
    ///
    /// # Errors
    ///
    /// [`Refusal::NoSuchObject`].
    ///
    /// ```
    /// use lokhazim::QuotaId;
    ///
    /// # let mut memory = [0; 128];
    /// let mut heap = lokhazim::Heap::open(&mut memory, [100; lokhazim::QUOTAS])?;
    /// let handle = heap.allocate(QuotaId::new(0), 10)?;
    /// heap.lend_mut(handle)?.fill(7);
    /// assert_eq!(heap.lend(handle)?, [7; 16]);
    /// # Ok::<(), lokhazim::Refusal>(())
    /// ```
    pub fn lend_mut(&mut self, handle: Handle) -> Result<&mut [u8], Refusal> {
        let range = raw::lend(self.bytes, &self.words, handle);
        verdict(range.refusal)?;
        Ok(&mut self.bytes[range.start..range.end])
    }

    /// Writes one of the handle's bytes, `at` bytes behind its base; writes nothing at their end or
    /// behind it.
    ///
    /// # Errors
    ///
    /// [`Refusal::NoSuchObject`].
    ///
    /// ```
    /// use lokhazim::QuotaId;
    ///
    /// # let mut memory = [0; 128];
    /// let mut heap = lokhazim::Heap::open(&mut memory, [100; lokhazim::QUOTAS])?;
    /// let handle = heap.allocate(QuotaId::new(0), 8)?;
    /// heap.write(handle, 1, 255)?;
    /// heap.write(handle, 8, 255)?;
    /// assert_eq!(heap.lend(handle)?, [0, 255, 0, 0, 0, 0, 0, 0]);
    /// # Ok::<(), lokhazim::Refusal>(())
    /// ```
    pub fn write(&mut self, handle: Handle, at: u32, byte: u8) -> Result<(), Refusal> {
        verdict(raw::write(self.bytes, &self.words, handle, at, byte))
    }

    /// What remains of the quota.
    ///
    /// # Errors
    ///
    /// [`Refusal::QuotaNumber`].
    ///
    /// ```
    /// use lokhazim::QuotaId;
    ///
    /// # let mut memory = [0; 128];
    /// let heap = lokhazim::Heap::open(&mut memory, [100; lokhazim::QUOTAS])?;
    /// assert_eq!(heap.remaining(QuotaId::new(31))?, 100);
    /// assert!(heap.remaining(QuotaId::new(32)).is_err());
    /// # Ok::<(), lokhazim::Refusal>(())
    /// ```
    pub fn remaining(&self, quota: QuotaId) -> Result<u32, Refusal> {
        amount(raw::remaining(self.bytes, &self.words, quota.number()))
    }

    /// What the quota may do.
    ///
    /// # Errors
    ///
    /// [`Refusal::QuotaNumber`].
    ///
    /// ```
    /// use lokhazim::{Heap, Permissions, QuotaId, QUOTAS};
    ///
    /// # let mut memory = [0; 128];
    /// let heap = Heap::open(&mut memory, [100; QUOTAS])?;
    /// assert_eq!(heap.permissions(QuotaId::new(31))?, Permissions::ALL);
    /// assert!(heap.permissions(QuotaId::new(32)).is_err());
    /// # Ok::<(), lokhazim::Refusal>(())
    /// ```
    pub fn permissions(&self, quota: QuotaId) -> Result<Permissions, Refusal> {
        // What remains of a quota is told under the same refusals.
        self.remaining(quota)?;
        let bits = self.accounts().quotas[quota.number() as usize].permissions;
        Ok(Permissions::left(u32::from(bits)))
    }

    /// What becomes of a block that nobody holds any more, as it was chosen at the opening.
    ///
    /// ```
    /// use lokhazim::{Heap, Kind, QUOTAS};
    ///
    /// # let mut memory = [0; 128];
    /// let heap = Heap::open(&mut memory, [100; QUOTAS])?;
    /// assert_eq!(heap.kind(), Kind::Plain);
    /// # Ok::<(), lokhazim::Refusal>(())
    /// ```
    #[must_use]
    pub fn kind(&self) -> Kind {
        // The library gives no other number than 0 and 1.
        match self.accounts().kind {
            0 => Kind::Plain,
            _ => Kind::Quarantine,
        }
    }

    /// Which rounding table gives the units, as it was chosen at the opening.
    ///
    /// ```
    /// use lokhazim::{Edition, Heap, QUOTAS};
    ///
    /// # let mut memory = [0; 128];
    /// let heap = Heap::open(&mut memory, [100; QUOTAS])?;
    /// assert_eq!(heap.edition(), Edition::First);
    /// # Ok::<(), lokhazim::Refusal>(())
    /// ```
    #[must_use]
    pub fn edition(&self) -> Edition {
        // The library gives no other number than 0 and 1.
        match self.accounts().edition {
            0 => Edition::First,
            _ => Edition::Second,
        }
    }

    /// Whether release would be accepted.
    ///
    /// # Errors
    ///
    /// The refusal that [`release`](Heap::release) would give.
    ///
    /// ```
    /// use lokhazim::{Heap, QuotaId, Refusal, QUOTAS};
    ///
    /// # let mut memory = [0; 128];
    /// let mut heap = Heap::open(&mut memory, [100; QUOTAS])?;
    /// let handle = heap.allocate(QuotaId::new(0), 10)?;
    /// assert_eq!(heap.can_release(QuotaId::new(0), handle), Ok(()));
    /// assert_eq!(heap.can_release(QuotaId::new(1), handle), Err(Refusal::NotHeld));
    /// # Ok::<(), Refusal>(())
    /// ```
    pub fn can_release(&self, quota: QuotaId, handle: Handle) -> Result<(), Refusal> {
        verdict(raw::can_release(
            self.bytes,
            &self.words,
            quota.number(),
            handle,
        ))
    }

    /// The block that starts at an offset, if one does.
    ///
    /// # Errors
    ///
    /// None but [`Refusal::Inconsistent`].
    ///
    /// ```
    /// # let mut memory = [0; 128];
    /// let heap = lokhazim::Heap::open(&mut memory, [100; lokhazim::QUOTAS])?;
    /// assert_eq!(heap.block_at(0)?.unwrap().size, 128);
    /// assert_eq!(heap.block_at(8)?, None);
    /// # Ok::<(), lokhazim::Refusal>(())
    /// ```
    pub fn block_at(&self, offset: usize) -> Result<Option<Block>, Refusal> {
        let reply = raw::list_block(self.bytes, &self.words, offset);
        verdict(reply.refusal)?;
        Ok((reply.found != 0).then_some(Block {
            offset: reply.offset,
            size: reply.size,
            serial: reply.serial,
        }))
    }

    /// The blocks from the heap's first byte to its last: live, free and quarantined ones.
    ///
    /// ```
    /// use lokhazim::QuotaId;
    ///
    /// # let mut memory = [0; 128];
    /// let mut heap = lokhazim::Heap::open(&mut memory, [100; lokhazim::QUOTAS])?;
    /// heap.allocate(QuotaId::new(0), 10)?;
    /// let sizes: Result<Vec<usize>, _> = heap.blocks().map(|block| Ok(block?.size)).collect();
    /// assert_eq!(sizes?, [24, 104]);
    /// # Ok::<(), lokhazim::Refusal>(())
    /// ```
    #[must_use]
    pub fn blocks(&self) -> Blocks<'_> {
        Blocks::new(self)
    }

    /// Checks bytes and accounts as every call does first.
    ///
    /// # Errors
    ///
    /// None but [`Refusal::Inconsistent`].
    ///
    /// ```
    /// # let mut memory = [0; 128];
    /// let heap = lokhazim::Heap::open(&mut memory, [100; lokhazim::QUOTAS])?;
    /// assert_eq!(heap.check(), Ok(()));
    /// # Ok::<(), lokhazim::Refusal>(())
    /// ```
    pub fn check(&self) -> Result<(), Refusal> {
        verdict(raw::check(self.bytes, &self.words))
    }
}
