//! The listing of a heap's blocks.

use core::iter::FusedIterator;

use crate::heap::Heap;
use crate::refusal::Refusal;

/// The serial of a quarantined block, which no object has.
pub const QUARANTINED: u32 = u32::MAX;

/// A block of the heap: a header of 8 bytes and what stands behind it.
#[derive(Clone, Copy, Debug, PartialEq, Eq, Hash)]
pub struct Block {
    /// The offset of the header.
    pub offset: usize,
    /// The size in bytes, with the header.
    pub size: usize,
    /// The serial of the object in it, 0 if the block is free, [`QUARANTINED`] if it waits for a
    /// sweep.
    pub serial: u32,
}

impl Block {
    /// Whether the block is free.
    ///
    /// ```
    /// # let mut memory = [0; 128];
    /// let heap = lokhazim::Heap::open(&mut memory, [100; lokhazim::QUOTAS])?;
    /// assert!(heap.block_at(0)?.unwrap().is_free());
    /// # Ok::<(), lokhazim::Refusal>(())
    /// ```
    #[must_use]
    pub const fn is_free(&self) -> bool {
        self.serial == 0
    }

    /// Whether the block waits for a sweep.
    ///
    /// ```
    /// use lokhazim::{Heap, Kind, Options, QuotaId, QUOTAS};
    ///
    /// # let mut memory = [0; 128];
    /// let options = Options { kind: Kind::Quarantine, ..Options::default() };
    /// let mut heap = Heap::open_with(&mut memory, [100; QUOTAS], options)?;
    /// let handle = heap.allocate(QuotaId::new(0), 10)?;
    /// heap.release(QuotaId::new(0), handle)?;
    /// assert!(heap.block_at(0)?.unwrap().is_quarantined());
    /// # Ok::<(), lokhazim::Refusal>(())
    /// ```
    #[must_use]
    pub const fn is_quarantined(&self) -> bool {
        self.serial == QUARANTINED
    }

    /// Whether the block has an object: it is neither free nor quarantined.
    ///
    /// ```
    /// use lokhazim::QuotaId;
    ///
    /// # let mut memory = [0; 128];
    /// let mut heap = lokhazim::Heap::open(&mut memory, [100; lokhazim::QUOTAS])?;
    /// heap.allocate(QuotaId::new(0), 10)?;
    /// assert!(heap.block_at(0)?.unwrap().is_live());
    /// assert!(!heap.block_at(24)?.unwrap().is_live());
    /// # Ok::<(), lokhazim::Refusal>(())
    /// ```
    #[must_use]
    pub const fn is_live(&self) -> bool {
        !self.is_free() && !self.is_quarantined()
    }
}

/// The blocks of a heap in order; [`Heap::blocks`] gives it.
///
/// Each step checks the whole heap, as every call does. It ends behind the last block, and behind
/// a refusal.
#[derive(Debug)]
pub struct Blocks<'h> {
    heap: &'h Heap<'h>,
    next: Option<usize>,
}

impl<'h> Blocks<'h> {
    /// The blocks from offset 0 on.
    pub(crate) fn new(heap: &'h Heap<'_>) -> Blocks<'h> {
        Blocks {
            heap,
            next: Some(0),
        }
    }
}

impl Iterator for Blocks<'_> {
    type Item = Result<Block, Refusal>;

    fn next(&mut self) -> Option<Self::Item> {
        let block = self.heap.block_at(self.next?).transpose();
        self.next = match &block {
            Some(Ok(block)) => Some(block.offset + block.size),
            _ => None,
        };
        block
    }
}

impl FusedIterator for Blocks<'_> {}
