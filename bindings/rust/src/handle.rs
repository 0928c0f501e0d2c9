//! Handles of a part of an object.

use core::ops::{Bound, RangeBounds};

use crate::layout::Handle;

impl Handle {
    /// Makes a handle of a part of this one's bytes, counted from its first; none where the part
    /// has no byte or is not inside.
    ///
    /// It names what this handle names. [`Heap::lend`](crate::Heap::lend),
    /// [`lend_mut`](crate::Heap::lend_mut) and [`write`](crate::Heap::write) keep to the part. A
    /// hold that is [claimed](crate::Heap::claim) or [released](crate::Heap::release) by it is on
    /// the whole object. [`reallocate`](crate::Heap::reallocate) refuses it unless it has the whole
    /// object.
    ///
    /// Only the numbers are looked at. The heap keeps no list of the handles that were handed out:
    /// whoever can fill in the three numbers can widen a handle again.
    ///
    /// ```
    /// use lokhazim::{Heap, QuotaId, Refusal, QUOTAS};
    ///
    /// # let mut memory = [0; 128];
    /// let mut heap = Heap::open(&mut memory, [100; QUOTAS])?;
    /// let packet = heap.allocate(QuotaId::new(0), 16)?;
    /// let body = packet.narrowed(4..).unwrap();
    /// heap.lend_mut(body)?.fill(7);
    /// assert_eq!(heap.lend(packet)?, [0, 0, 0, 0, 7, 7, 7, 7, 7, 7, 7, 7, 7, 7, 7, 7]);
    ///
    /// assert_eq!(heap.claim(QuotaId::new(1), body)?, 16);
    /// assert_eq!(heap.release(QuotaId::new(0), body)?, 24);
    /// assert_eq!(heap.reallocate(QuotaId::new(1), body, 8), Err(Refusal::NoSuchObject));
    ///
    /// assert_eq!(body.narrowed(..12), Some(body));
    /// assert_eq!(body.narrowed(..13), None);
    /// assert_eq!(body.narrowed(3..3), None);
    /// # Ok::<(), Refusal>(())
    /// ```
    pub fn narrowed(self, part: impl RangeBounds<u32>) -> Option<Handle> {
        let start = match part.start_bound() {
            Bound::Included(first) => *first,
            Bound::Excluded(before) => before.checked_add(1)?,
            Bound::Unbounded => 0,
        };
        let end = match part.end_bound() {
            Bound::Included(last) => last.checked_add(1)?,
            Bound::Excluded(end) => *end,
            Bound::Unbounded => self.length,
        };
        if start >= end || end > self.length {
            return None;
        }
        Some(Handle {
            base: self.base.checked_add(start)?,
            length: end - start,
            serial: self.serial,
        })
    }
}
