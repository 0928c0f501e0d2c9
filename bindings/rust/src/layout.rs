//! The structs that cross the boundary, field by field as the library has them.
//!
//! The headers in `include/` have the same structs for C, and the same numbers in their assertions.

use core::fmt;
use core::mem::{offset_of, size_of};

/// The number of quotas; they are numbered from 0.
pub const QUOTAS: usize = 32;

/// The number of hold records.
pub const HOLDS: usize = 512;

/// How many handles a queue has room for.
pub const QUEUE_PLACES: usize = 16;

/// What a quota was granted at the opening, what remains of it, and what it may do.
#[derive(Clone, Copy, Debug, Default, PartialEq, Eq, Hash)]
#[repr(C)]
pub struct Quota {
    /// What the quota was granted.
    pub grant: u32,
    /// What remains of the grant.
    pub remainder: u32,
    /// The bits of its permissions, at most 7.
    pub permissions: u8,
}

/// A hold record: how often a quota holds an object. An unused record is all zero.
#[derive(Clone, Copy, Debug, Default, PartialEq, Eq, Hash)]
#[repr(C)]
pub struct Hold {
    /// The object's serial.
    pub serial: u32,
    /// The quota's number.
    pub quota: u8,
    /// How often the quota holds the object, 1 to 255.
    pub count: u8,
}

/// The accounts of a heap: its quotas, the last serial given, the hold records, its kind and its edition.
#[derive(Clone, Debug, PartialEq, Eq, Hash)]
#[repr(C)]
pub struct Accounts {
    /// The quotas, by number.
    pub quotas: [Quota; QUOTAS],
    /// The serial that was given last, 0 before the first.
    pub last_serial: u32,
    /// The hold records.
    pub holds: [Hold; HOLDS],
    /// The number of the heap's [`Kind`](crate::Kind), 0 or 1.
    pub kind: u8,
    /// The number of the heap's [`Edition`](crate::Edition), 0 or 1.
    pub edition: u8,
}

/// Names an object by its serial and by the range of bytes that the handle has of it.
///
/// Every handle that a call gives is that of a whole object. A handle can be copied and handed on
/// freely, and made narrower by [`narrowed`](Handle::narrowed): with the object's serial, any range
/// of at least one byte inside the object names it as long as any quota holds it. Any other handle
/// names nothing, and calls refuse it.
#[derive(Clone, Copy, Debug, PartialEq, Eq, Hash)]
#[repr(C)]
pub struct Handle {
    /// The offset of the first byte in the heap.
    pub base: u32,
    /// The number of bytes.
    pub length: u32,
    /// The object's serial.
    pub serial: u32,
}

/// The number of a quota, from 0. Any number may be given; calls refuse those from [`QUOTAS`] on.
///
/// It is a type of its own, so that a quota and a length can't be exchanged. So there is no
/// conversion from a number but [`QuotaId::new`], which says what the number is:
///
/// ```compile_fail,E0308
/// # let mut memory = [0; 128];
/// let mut heap = lokhazim::Heap::open(&mut memory, [100; lokhazim::QUOTAS])?;
/// heap.allocate(10, 0)?;
/// # Ok::<(), lokhazim::Refusal>(())
/// ```
#[derive(Clone, Copy, Debug, Default, PartialEq, Eq, PartialOrd, Ord, Hash)]
#[repr(transparent)]
pub struct QuotaId(pub(crate) u32);

impl QuotaId {
    /// The quota of this number.
    ///
    /// ```
    /// use lokhazim::QuotaId;
    ///
    /// const LOGGER: QuotaId = QuotaId::new(1);
    /// assert_eq!(LOGGER.number(), 1);
    /// ```
    #[must_use]
    pub const fn new(number: u32) -> QuotaId {
        QuotaId(number)
    }

    /// Its number.
    #[must_use]
    pub const fn number(self) -> u32 {
        self.0
    }
}

impl fmt::Display for QuotaId {
    /// Writes the number.
    fn fmt(&self, f: &mut fmt::Formatter<'_>) -> fmt::Result {
        self.0.fmt(f)
    }
}

/// A queue of handles on their way from a sending quota to a receiving one, first in, first out.
///
/// [`send`](Queue::send) makes the receiver hold the object and then takes the sender's hold, and
/// [`receive`](Queue::receive) gives the handles in the order in which they were sent. Any numbers
/// may stand in the fields; a count above [`QUEUE_PLACES`] is refused.
#[derive(Clone, Debug, PartialEq, Eq, Hash)]
#[repr(C)]
pub struct Queue {
    /// The sending quota.
    pub sender: QuotaId,
    /// The receiving quota.
    pub receiver: QuotaId,
    /// How many handles are on their way.
    pub count: u32,
    /// The places; the first `count` are the handles on their way, the oldest first.
    pub handles: [Handle; QUEUE_PLACES],
}

/// What each quota is granted.
#[derive(Clone, Copy)]
#[repr(C)]
pub struct Grants {
    /// The grants, by the quota's number.
    pub values: [u32; QUOTAS],
}

/// The reply of allocate, allocate array and reallocate.
#[derive(Clone, Copy)]
#[repr(C)]
pub struct HandleReply {
    /// The refusal's number, 0 where there is none; so in every reply.
    pub refusal: u32,
    /// The new object.
    pub handle: Handle,
}

/// The reply of claim, release, free-all, clear permissions, sweep and remaining.
#[derive(Clone, Copy)]
#[repr(C)]
pub struct AmountReply {
    /// The refusal's number.
    pub refusal: u32,
    /// The number that the call answers.
    pub amount: u32,
}

/// The reply of lend.
#[repr(C)]
pub struct RangeReply {
    /// The refusal's number.
    pub refusal: u32,
    /// The offset of the handle's first byte.
    pub start: usize,
    /// The offset behind its last byte.
    pub end: usize,
}

/// The reply of a step of the listing.
#[repr(C)]
pub struct BlockReply {
    /// The refusal's number.
    pub refusal: u32,
    /// 1 where a block is given, else 0.
    pub found: u32,
    /// The block's offset.
    pub offset: usize,
    /// Its size in bytes.
    pub size: usize,
    /// Its serial, 0 for a free block, [`u32::MAX`] for a quarantined one.
    pub serial: u32,
}

/// The reply of writing an image.
#[repr(C)]
pub struct ImageReply {
    /// The refusal's number.
    pub refusal: u32,
    /// The length of what was written.
    pub length: usize,
}

/// The reply of examining an image.
#[repr(C)]
pub struct ExamineReply {
    /// The refusal's number.
    pub refusal: u32,
    /// The number of the image's form.
    pub form: u32,
    /// The length of the heap in it.
    pub heap_length: usize,
}

/// The reply of comparing two images.
#[repr(C)]
pub struct CompareReply {
    /// The refusal's number.
    pub refusal: u32,
    /// The image that a refusal is about: 1 the first, 2 the second, 0 neither.
    pub which: u32,
    /// 0 nothing, 1 the last serial, 2 a quota, 3 a record, 4 heap bytes, 5 the heap's kind, 6 its edition.
    pub kind: u32,
    /// The quota's number, the record's place, the bytes' offset.
    pub place: usize,
    /// How many bytes.
    pub length: usize,
}

/// The reply of asking for the next difference: the difference, and the position behind it.
#[repr(C)]
pub struct NextReply {
    /// As in [`CompareReply`].
    pub refusal: u32,
    /// As in [`CompareReply`].
    pub which: u32,
    /// As in [`CompareReply`].
    pub kind: u32,
    /// As in [`CompareReply`].
    pub place: usize,
    /// As in [`CompareReply`].
    pub length: usize,
    /// The part of the position behind it: 0 start, 1 quotas, 2 records, 3 bytes, 4 kind, 5 edition.
    pub part: u32,
    /// The place in that part.
    pub at: usize,
}

/// The reply of importing a report.
#[repr(C)]
pub struct ImportReply {
    /// The grants, all zero where the text is refused.
    pub grants: Grants,
    /// The refusal's number.
    pub refusal: u32,
    /// The number of the first bad line, from 1; 0 where there is none.
    pub line: u32,
}

/// The reply of exporting a report.
#[repr(C)]
pub struct ExportReply {
    /// The refusal's number.
    pub refusal: u32,
    /// The length of what was written.
    pub length: usize,
}

/// The reply of finding a setting.
#[repr(C)]
pub struct FindReply {
    /// The refusal's number.
    pub refusal: u32,
    /// The store in which the value lies: 1 the board's, 2 the defaults, 0 none.
    pub store: u32,
    /// The value's first byte in it.
    pub start: usize,
    /// The byte behind the value.
    pub end: usize,
}

/// The reply of adding a setting.
#[repr(C)]
pub struct AddReply {
    /// The refusal's number.
    pub refusal: u32,
    /// The new used length.
    pub used: usize,
}

/// The reply of asking for an entry of a store.
#[repr(C)]
pub struct EntryReply {
    /// The refusal's number.
    pub refusal: u32,
    /// 1 where an entry is given, else 0.
    pub there: u32,
    /// Its version.
    pub version: u16,
    /// Its name's number.
    pub name: u8,
    /// Its value's first byte in the store.
    pub start: usize,
    /// The byte behind its value.
    pub end: usize,
}

/// The bytes of a length, by which structs lie otherwise on machines of 32 bits.
const W: usize = size_of::<usize>();

/// Holds a struct to its size and to the offset of each field, when the crate is compiled.
macro_rules! lies {
    ($type:ty, $size:expr; $($field:ident at $offset:expr),+) => {
        const _: () = {
            assert!(size_of::<$type>() == $size);
            $(assert!(offset_of!($type, $field) == $offset);)+
        };
    };
}

lies!(Quota, 12; grant at 0, remainder at 4, permissions at 8);
lies!(Hold, 8; serial at 0, quota at 4, count at 5);
lies!(Accounts, 4488; quotas at 0, last_serial at 384, holds at 388, kind at 4484, edition at 4485);
lies!(Handle, 12; base at 0, length at 4, serial at 8);
lies!(Grants, 128; values at 0);
lies!(HandleReply, 16; refusal at 0, handle at 4);
lies!(AmountReply, 8; refusal at 0, amount at 4);
lies!(RangeReply, 3 * W; refusal at 0, start at W, end at 2 * W);
lies!(BlockReply, 8 + 3 * W; refusal at 0, found at 4, offset at 8, size at 8 + W, serial at 8 + 2 * W);
lies!(ImageReply, 2 * W; refusal at 0, length at W);
lies!(ExamineReply, 8 + W; refusal at 0, form at 4, heap_length at 8);
lies!(CompareReply, 8 + 3 * W; refusal at 0, which at 4, kind at 8, place at 8 + W, length at 8 + 2 * W);
lies!(NextReply, 8 + 5 * W; refusal at 0, which at 4, kind at 8, place at 8 + W, length at 8 + 2 * W);
lies!(NextReply, 8 + 5 * W; part at 8 + 3 * W, at at 8 + 4 * W);
lies!(ImportReply, 136; grants at 0, refusal at 128, line at 132);
lies!(ExportReply, 2 * W; refusal at 0, length at W);
lies!(FindReply, 8 + 2 * W; refusal at 0, store at 4, start at 8, end at 8 + W);
lies!(AddReply, 2 * W; refusal at 0, used at W);
lies!(EntryReply, 8 + 3 * W; refusal at 0, there at 4, version at 8, name at 10, start at 8 + W, end at 8 + 2 * W);
lies!(Queue, 204; sender at 0, receiver at 4, count at 8, handles at 12);
