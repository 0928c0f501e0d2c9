//! The statistics of a heap and of a quota.

use crate::heap::Heap;
use crate::layout::QuotaId;
use crate::raw;
use crate::refusal::{verdict, Refusal};

/// Some blocks. Their headers are counted, 8 bytes for each block.
#[repr(C)]
#[derive(Clone, Copy, Debug, Default, PartialEq, Eq, Hash)]
pub struct BlockCount {
    /// How many there are.
    pub blocks: usize,
    /// How many bytes they have.
    pub bytes: usize,
}

/// The statistics of a heap, by [`Heap::statistics`].
#[derive(Clone, Copy, Debug, Default, PartialEq, Eq, Hash)]
pub struct Statistics {
    /// The serial of the last object that was made.
    pub last_serial: u32,
    /// The hold records that are used, of [`HOLDS`](crate::HOLDS).
    pub records: usize,
    /// The free blocks. The bytes of all three come to the heap's length.
    pub free: BlockCount,
    /// The blocks of objects.
    pub live: BlockCount,
    /// The blocks in quarantine.
    pub quarantined: BlockCount,
    /// The bytes of the largest free block, its header included.
    pub largest_free: usize,
    /// The bytes of all other free blocks: how much the free bytes are scattered.
    pub fragmented: usize,
    /// For each of [`UNITS`], the longest request in that unit that is not refused for space now; 0
    /// where there is none. A request belongs to the unit of its rounded length.
    pub largest: [usize; 4],
}

/// The units of [`Statistics::largest`]. Edition 1 has no length in the last one that fits a heap.
pub const UNITS: [usize; 4] = [8, 16, 32, 64];

impl Statistics {
    /// The longest request that is not refused for space now, in any unit.
    #[must_use]
    pub fn largest_request(&self) -> usize {
        self.largest.into_iter().max().unwrap_or(0)
    }
}

/// The statistics of a quota, by [`Heap::quota_statistics`].
#[derive(Clone, Copy, Debug, Default, PartialEq, Eq, Hash)]
pub struct QuotaStatistics {
    /// What it was granted.
    pub grant: u32,
    /// What remains of that.
    pub remaining: u32,
    /// The objects that it holds.
    pub objects: usize,
    /// Those of them that another quota holds too.
    pub shared: usize,
}

/// What the library gives.
#[repr(C)]
pub struct StatisticsReply {
    refusal: u32,
    last_serial: u32,
    records: usize,
    free: BlockCount,
    live: BlockCount,
    quarantined: BlockCount,
    largest_free: usize,
    fragmented: usize,
    largest: [usize; 4],
}

/// What the library gives of a quota.
#[repr(C)]
pub struct QuotaStatisticsReply {
    refusal: u32,
    grant: u32,
    remaining: u32,
    objects: usize,
    shared: usize,
}

impl Heap<'_> {
    /// Gives the statistics of the heap: what is free, live and in quarantine, how long a request could
    /// be, and how the free bytes are scattered.
    ///
    /// # Errors
    ///
    /// [`Refusal::HeapLength`] or [`Refusal::Inconsistent`].
    ///
    /// ```
    /// use lokhazim::QuotaId;
    ///
    /// # let mut memory = [0; 256];
    /// let mut heap = lokhazim::Heap::open(&mut memory, [300; lokhazim::QUOTAS])?;
    /// let first = heap.allocate(QuotaId::new(0), 40)?;
    /// heap.allocate(QuotaId::new(0), 16)?;
    /// heap.release(QuotaId::new(0), first)?;
    /// let now = heap.statistics()?;
    /// assert_eq!((now.free.bytes, now.live.bytes), (232, 24));
    /// assert_eq!((now.largest_free, now.fragmented), (184, 48));
    /// assert_eq!(now.largest, [176, 0, 0, 0]);
    /// assert!(heap.allocate(QuotaId::new(0), 177).is_err());
    /// # Ok::<(), lokhazim::Refusal>(())
    /// ```
    pub fn statistics(&self) -> Result<Statistics, Refusal> {
        let reply = raw::statistics::statistics(self.bytes, &self.words);
        verdict(reply.refusal)?;
        Ok(Statistics {
            last_serial: reply.last_serial,
            records: reply.records,
            free: reply.free,
            live: reply.live,
            quarantined: reply.quarantined,
            largest_free: reply.largest_free,
            fragmented: reply.fragmented,
            largest: reply.largest,
        })
    }

    /// Gives the statistics of a quota.
    ///
    /// # Errors
    ///
    /// [`Refusal::HeapLength`], [`Refusal::Inconsistent`] or [`Refusal::QuotaNumber`].
    ///
    /// ```
    /// use lokhazim::QuotaId;
    ///
    /// # let mut memory = [0; 256];
    /// let mut heap = lokhazim::Heap::open(&mut memory, [100; lokhazim::QUOTAS])?;
    /// let object = heap.allocate(QuotaId::new(0), 40)?;
    /// heap.allocate(QuotaId::new(0), 16)?;
    /// heap.claim(QuotaId::new(1), object)?;
    /// let now = heap.quota_statistics(QuotaId::new(0))?;
    /// assert_eq!((now.grant, now.remaining), (100, 28));
    /// assert_eq!((now.objects, now.shared), (2, 1));
    /// # Ok::<(), lokhazim::Refusal>(())
    /// ```
    pub fn quota_statistics(&self, quota: QuotaId) -> Result<QuotaStatistics, Refusal> {
        let reply = raw::statistics::quota_statistics(self.bytes, &self.words, quota.number());
        verdict(reply.refusal)?;
        Ok(QuotaStatistics {
            grant: reply.grant,
            remaining: reply.remaining,
            objects: reply.objects,
            shared: reply.shared,
        })
    }
}
