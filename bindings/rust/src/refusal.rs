//! Why a call is refused.

use core::error::Error;
use core::fmt;

use crate::layout::{HOLDS, QUOTAS};

/// Why a call is refused; a refused call changes nothing.
///
/// Calls check in the order of the numbers, but [`Refusal::NotPermitted`] right after
/// [`Refusal::QuotaNumber`]. Their text says what is wrong and what to do:
///
/// ```
/// use lokhazim::Refusal;
///
/// assert_eq!(
///     Refusal::QuotaNumber.to_string(),
///     "refusal 3: there is no quota of this number; use 0 to 31"
/// );
/// ```
#[derive(Clone, Copy, Debug, PartialEq, Eq, PartialOrd, Ord, Hash)]
#[repr(u32)]
#[non_exhaustive]
pub enum Refusal {
    /// 1: the heap's length is not allowed.
    HeapLength = 1,
    /// 2: the heap's bytes and its accounts don't agree, an object's base or length is no multiple of
    /// its unit in the heap's own [`Edition`](crate::Edition), a quota has permissions that don't
    /// exist, the last serial is above [`SERIAL_MAX`](crate::SERIAL_MAX), the kind or the edition
    /// doesn't exist, or a plain heap has a quarantined block.
    Inconsistent = 2,
    /// 3: there is no quota of this number.
    QuotaNumber = 3,
    /// 4: the length, or count times size, is 0 or above [`REQUEST_MAX`](crate::REQUEST_MAX).
    ObjectLength = 4,
    /// 5: the handle names no live object; or, given to reallocate, names one and not the whole of
    /// it.
    NoSuchObject = 5,
    /// 6: this quota doesn't hold the object.
    NotHeld = 6,
    /// 7: this quota holds the object 255 times, which is the most.
    CountLimit = 7,
    /// 8: the charge is above what remains of the quota.
    QuotaExceeded = 8,
    /// 9: all hold records are used.
    HoldsExhausted = 9,
    /// 10: the last serial is [`SERIAL_MAX`](crate::SERIAL_MAX), so every serial was given.
    SerialsExhausted = 10,
    /// 11: no free run of bytes is long enough; in a heap with quarantine a sweep may make one.
    NoSpace = 11,
    /// 12: the quota lacks the permission that the call needs.
    NotPermitted = 12,
}

impl Refusal {
    /// Every refusal, by its number.
    pub const ALL: [Refusal; 12] = [
        Refusal::HeapLength,
        Refusal::Inconsistent,
        Refusal::QuotaNumber,
        Refusal::ObjectLength,
        Refusal::NoSuchObject,
        Refusal::NotHeld,
        Refusal::CountLimit,
        Refusal::QuotaExceeded,
        Refusal::HoldsExhausted,
        Refusal::SerialsExhausted,
        Refusal::NoSpace,
        Refusal::NotPermitted,
    ];

    /// The refusal's number, 1 to 12, the same as in C.
    ///
    /// ```
    /// assert_eq!(lokhazim::Refusal::QuotaExceeded.number(), 8);
    /// ```
    #[must_use]
    pub const fn number(self) -> u32 {
        self as u32
    }

    /// The refusal that has this number, if one has.
    ///
    /// ```
    /// use lokhazim::Refusal;
    ///
    /// assert_eq!(Refusal::from_number(8), Some(Refusal::QuotaExceeded));
    /// assert_eq!(Refusal::from_number(0), None);
    /// ```
    #[must_use]
    pub fn from_number(number: u32) -> Option<Refusal> {
        Refusal::ALL
            .into_iter()
            .find(|refusal| refusal.number() == number)
    }

    /// What is wrong, and what to do; nothing for what has a number in its text.
    const fn advice(self) -> &'static str {
        match self {
            Refusal::QuotaNumber | Refusal::HoldsExhausted => "",
            Refusal::HeapLength => {
                "the heap's length is not allowed; lend 64 to 32,768 bytes, a multiple of 8"
            }
            Refusal::Inconsistent => {
                "the heap's bytes and its accounts don't agree; something else has written to them, so open the heap anew"
            }
            Refusal::ObjectLength => {
                "no object can have this length; ask for 1 to 32,760 bytes in all"
            }
            Refusal::NoSuchObject => {
                "the handle names no live object; use it only while a quota holds the object, and reallocate with the whole object's handle"
            }
            Refusal::NotHeld => {
                "this quota doesn't hold the object; claim it, or name the quota that does"
            }
            Refusal::CountLimit => {
                "this quota holds the object 255 times; release it before you claim it again"
            }
            Refusal::QuotaExceeded => {
                "the object costs its length plus 8, and less remains of the quota; release something or ask for less"
            }
            Refusal::SerialsExhausted => "every serial was given; open the heap anew",
            Refusal::NoSpace => {
                "no free run of bytes is long enough; release something, sweep a heap with quarantine, or ask for less"
            }
            Refusal::NotPermitted => {
                "the quota lacks the permission for this call; it was cleared, and only an opening or an image that is read sets it again"
            }
        }
    }
}

impl fmt::Display for Refusal {
    fn fmt(&self, f: &mut fmt::Formatter<'_>) -> fmt::Result {
        write!(f, "refusal {}: {}", self.number(), self.advice())?;
        match self {
            Refusal::QuotaNumber => {
                let last = QUOTAS - 1;
                write!(f, "there is no quota of this number; use 0 to {last}")
            }
            Refusal::HoldsExhausted => {
                write!(f, "all {HOLDS} hold records are used; release something")
            }
            _ => Ok(()),
        }
    }
}

impl Error for Refusal {}

/// The verdict that a reply's refusal number stands for.
///
/// # Panics
///
/// Where the number is above 12, which the library is proved not to give: then another library
/// has been linked in its place.
pub(crate) fn verdict(number: u32) -> Result<(), Refusal> {
    if number == 0 {
        return Ok(());
    }
    Err(Refusal::from_number(number).unwrap_or_else(|| {
        panic!("refusal {number} is unknown; link the liblokhazim.a of this crate's version")
    }))
}
