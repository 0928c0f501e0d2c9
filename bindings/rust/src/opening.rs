//! What an opening chooses beside the grants.

use core::fmt;

/// What becomes of the block of an object that nobody holds any more.
///
/// ```
/// use lokhazim::{grants, Heap, Kind, Options, QuotaId, Refusal};
///
/// let options = Options { kind: Kind::Quarantine, ..Options::default() };
/// let mut memory = [0; 64];
/// let mut heap = Heap::open_with(&mut memory, grants([100]), options)?;
/// let handle = heap.allocate(QuotaId::new(0), 56)?;
/// assert_eq!(heap.release(QuotaId::new(0), handle)?, 64);
///
/// // The quota has its charge back, but the bytes wait.
/// assert_eq!(heap.remaining(QuotaId::new(0))?, 100);
/// assert_eq!(heap.allocate(QuotaId::new(0), 56), Err(Refusal::NoSpace));
/// assert_eq!(heap.sweep()?, 64);
/// assert_eq!(heap.allocate(QuotaId::new(0), 56)?.serial, 2);
/// # Ok::<(), Refusal>(())
/// ```
#[derive(Clone, Copy, Debug, Default, PartialEq, Eq, Hash)]
#[repr(u8)]
#[non_exhaustive]
pub enum Kind {
    /// It is free at once.
    #[default]
    Plain = 0,
    /// It waits in quarantine until [`Heap::sweep`](crate::Heap::sweep).
    Quarantine = 1,
}

impl Kind {
    /// The kind's number, the same as in C and in [`Accounts::kind`](crate::Accounts::kind).
    ///
    /// ```
    /// assert_eq!(lokhazim::Kind::Quarantine.number(), 1);
    /// ```
    #[must_use]
    pub const fn number(self) -> u8 {
        self as u8
    }

    /// The kind that has this number, if one has.
    ///
    /// ```
    /// use lokhazim::Kind;
    ///
    /// assert_eq!(Kind::from_number(0), Some(Kind::Plain));
    /// assert_eq!(Kind::from_number(2), None);
    /// ```
    #[must_use]
    pub const fn from_number(number: u8) -> Option<Kind> {
        match number {
            0 => Some(Kind::Plain),
            1 => Some(Kind::Quarantine),
            _ => None,
        }
    }
}

impl fmt::Display for Kind {
    /// Writes `plain` or `quarantine`.
    fn fmt(&self, f: &mut fmt::Formatter<'_>) -> fmt::Result {
        f.pad(match self {
            Kind::Plain => "plain",
            Kind::Quarantine => "quarantine",
        })
    }
}

/// The edition of the rounding table, which gives each length its unit.
///
/// A request gets an object of the next multiple of its unit (itself, if it is one), at a base that is
/// a multiple of the unit of that length.
///
/// | unit | 8 | 16 | 32 | 64 | 128 |
/// |---|---|---|---|---|---|
/// | first edition | to 8,191 | to 16,383 | to 32,767 | above | |
/// | second edition | to 4,088 | to 8,176 | to 16,352 | to 32,704 | above |
///
/// An object of 32,768 bytes fits no heap: the longest request that can be accepted is 32,736 in the
/// first edition and 32,704 in the second.
///
/// ```
/// use lokhazim::{grants, Edition, Heap, Options, QuotaId};
///
/// let mut memory = [0; 8_192];
/// let mut heap = Heap::open(&mut memory, grants([9_000]))?;
/// let handle = heap.allocate(QuotaId::new(0), 4_089)?;
/// assert_eq!((handle.base, handle.length), (8, 4_096));
///
/// let options = Options { edition: Edition::Second, ..Options::default() };
/// let mut heap = Heap::open_with(&mut memory, grants([9_000]), options)?;
/// let handle = heap.allocate(QuotaId::new(0), 4_089)?;
/// assert_eq!((handle.base, handle.length), (16, 4_096));
/// # Ok::<(), lokhazim::Refusal>(())
/// ```
#[derive(Clone, Copy, Debug, Default, PartialEq, Eq, Hash)]
#[repr(u8)]
#[non_exhaustive]
pub enum Edition {
    /// The table of the first version.
    #[default]
    First = 0,
    /// The table with longer units from 4,089 bytes on.
    Second = 1,
}

impl Edition {
    /// The edition's number, the same as in C and in [`Accounts::edition`](crate::Accounts::edition).
    ///
    /// ```
    /// assert_eq!(lokhazim::Edition::Second.number(), 1);
    /// ```
    #[must_use]
    pub const fn number(self) -> u8 {
        self as u8
    }

    /// The edition that has this number, if one has.
    ///
    /// ```
    /// use lokhazim::Edition;
    ///
    /// assert_eq!(Edition::from_number(0), Some(Edition::First));
    /// assert_eq!(Edition::from_number(2), None);
    /// ```
    #[must_use]
    pub const fn from_number(number: u8) -> Option<Edition> {
        match number {
            0 => Some(Edition::First),
            1 => Some(Edition::Second),
            _ => None,
        }
    }
}

impl fmt::Display for Edition {
    /// Writes the number by which the rules name it: `1` or `2`.
    fn fmt(&self, f: &mut fmt::Formatter<'_>) -> fmt::Result {
        f.pad(match self {
            Edition::First => "1",
            Edition::Second => "2",
        })
    }
}

/// What [`Heap::open_with`](crate::Heap::open_with) chooses beside the grants. By default a heap is
/// plain and of the first edition.
#[derive(Clone, Copy, Debug, Default, PartialEq, Eq, Hash)]
pub struct Options {
    /// What becomes of a block that nobody holds any more.
    pub kind: Kind,
    /// Which rounding table gives the units.
    pub edition: Edition,
}
