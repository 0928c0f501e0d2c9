//! A heap that parts of a program share without trusting each other, over the proved library
//! `liblokhazim.a`.
//!
//! Each part has a quota, each object costs its rounded length plus 8, and a part may hold an object
//! that another made. A heap may keep the blocks of released objects in quarantine until a sweep
//! (see [`Kind`]), and rounds by one of two tables (see [`Edition`]). Every call but the opening
//! checks the whole heap and its accounts; a call answers, or gives one of twelve refusals and
//! changes nothing. That is proved of the library on any bytes and any numbers; this crate adds types
//! that keep the bytes and their accounts together, and no rule of its own. A quota's number is an
//! argument: keep the [`Heap`] in one trusted place that fills in each part's number.
//!
//! The story of `examples/valve.c`: a logger that has nearly spent its quota is refused, a radio
//! keeps a buffer alive by a claim, and the valve's close command still finds room.
//!
//! ```
//! use lokhazim::{grants, Aligned, Heap, QuotaId, Refusal};
//!
//! const VALVE: QuotaId = QuotaId::new(0);
//! const LOGGER: QuotaId = QuotaId::new(1);
//! const RADIO: QuotaId = QuotaId::new(2);
//!
//! let mut memory = Aligned([0; 256]);
//! let mut heap = Heap::open(&mut memory.0, grants([48, 120, 64]))?;
//!
//! let buffer = heap.allocate(LOGGER, 40)?;
//! heap.lend_mut(buffer)?[..8].copy_from_slice(b"pressure");
//! heap.allocate(LOGGER, 40)?;
//! assert_eq!(heap.remaining(LOGGER)?, 24);
//!
//! // 32 bytes cost 40. Nothing wraps: 24 are left as before.
//! assert_eq!(heap.allocate(LOGGER, 32), Err(Refusal::QuotaExceeded));
//! assert_eq!(heap.remaining(LOGGER)?, 24);
//!
//! // The radio gets a handle of the reading alone, and holds the whole buffer by it.
//! let reading = buffer.narrowed(..8).unwrap();
//! assert_eq!(heap.claim(RADIO, reading)?, 40);
//! heap.release(LOGGER, buffer)?;
//! assert_eq!(heap.lend(reading)?, b"pressure");
//!
//! let close = heap.allocate(VALVE, 32)?;
//! assert_eq!(close.base, 104);
//!
//! heap.release(RADIO, reading)?;
//! assert_eq!(heap.lend(buffer), Err(Refusal::NoSuchObject));
//! # Ok::<(), Refusal>(())
//! ```
//!
//! `make lib` writes the library to `build/lib/`, where this crate looks for it; the variable
//! `LOKHAZIM_LIB_DIR` names another folder, from the root or from where cargo is started. The crate
//! is for x86-64; it needs `memcpy`, `memmove` and `memset`, no operating system and no memory of
//! its own.

#![no_std]
#![deny(missing_docs)]
#![deny(unsafe_code)]
#![warn(clippy::must_use_candidate)]

#[cfg(all(library_missing, not(clippy), not(doc)))]
compile_error!(concat!(
    "the library liblokhazim.a is missing in ",
    env!("LOKHAZIM_LOOKED"),
    ": run 'make lib' in the repository, or name its folder in LOKHAZIM_LIB_DIR, then build again"
));

mod blocks;
mod comparison;
mod handle;
mod heap;
mod image;
mod layout;
mod moves;
mod opening;
mod parts;
mod permissions;
mod queries;
mod queue;
#[allow(unsafe_code)]
mod raw;
mod refusal;
mod report;
mod settings;
mod statistics;

pub use blocks::{Block, Blocks, QUARANTINED};
pub use comparison::{compare_images, CompareRefusal, Difference, Differences, Which};
pub use heap::Heap;
pub use image::{
    examine_image, image_length, image_length_form_1, ImageFacts, ImageRefusal, FORM_1_HOLDS,
    FORM_1_QUOTAS, IMAGE_MAX, IMAGE_MAX_FORM_1,
};
pub use layout::{Accounts, Handle, Hold, Queue, Quota, QuotaId, HOLDS, QUEUE_PLACES, QUOTAS};
pub use moves::{move_image_down, move_image_up};
pub use opening::{Edition, Kind, Options};
pub use permissions::Permissions;
pub use queue::QueueRefusal;
pub use refusal::Refusal;
pub use report::{
    export_grants, import_grants, ImportRefusal, ReportRefusal, REPORT_LENGTH, REPORT_LINE,
};
pub use settings::{
    add_setting, find_setting, Entries, Entry, SettingsRefusal, Store, ENTRY_FRONT, VALUE_MAX,
};
pub use statistics::{BlockCount, QuotaStatistics, Statistics, UNITS};

/// The length of the shortest heap; a heap's length is a multiple of 8.
pub const HEAP_MIN: usize = 64;

/// The length of the longest heap.
pub const HEAP_MAX: usize = 32_768;

/// The most bytes that can be asked for.
pub const REQUEST_MAX: u32 = 32_760;

/// The last serial that an object can get.
pub const SERIAL_MAX: u32 = u32::MAX - 1;

/// The grants of the first quotas, and 0 for the others.
///
/// ```
/// use lokhazim::{grants, QUOTAS};
///
/// const GRANTS: [u32; QUOTAS] = grants([100, 1_000]);
/// assert_eq!(GRANTS[..3], [100, 1_000, 0]);
/// ```
#[must_use]
pub const fn grants<const N: usize>(first: [u32; N]) -> [u32; QUOTAS] {
    const { assert!(N <= QUOTAS, "there are more grants than quotas") };
    let mut all = [0; QUOTAS];
    let mut number = 0;
    while number < N {
        all[number] = first[number];
        number += 1;
    }
    all
}

/// Bytes that begin at an address which is a multiple of 64, the greatest unit of an object that fits
/// a heap.
///
/// An object's base, counted from the heap's first byte, is a multiple of the unit that the heap's
/// [`Edition`] gives to its length. In a heap of aligned bytes the address of the object is one too.
///
/// ```
/// use lokhazim::{Aligned, Edition, Heap, Options, QuotaId, QUOTAS};
///
/// let mut memory = Aligned([0; 32_768]);
/// let options = Options { edition: Edition::Second, ..Options::default() };
/// let mut heap = Heap::open_with(&mut memory.0, [40_000; QUOTAS], options)?;
/// let handle = heap.allocate(QuotaId::new(0), 20_000)?;
/// assert!(heap.lend(handle)?.as_ptr().addr().is_multiple_of(64));
/// # Ok::<(), lokhazim::Refusal>(())
/// ```
#[derive(Clone, Copy, Debug)]
#[repr(C, align(64))]
pub struct Aligned<const N: usize>(pub [u8; N]);
