//! The refusals and their numbers (rule 7.1).

use std::fmt;

/// Why a call was refused; the order of the cases is the order of the checks.
#[derive(Clone, Copy, Debug, PartialEq, Eq, PartialOrd, Ord, Hash)]
pub enum Refusal {
    /// 1: the heap length is not allowed.
    HeapLength,
    /// 2: heap and accounts are not consistent.
    NotSound,
    /// 3: the quota number is not below the number of quotas.
    QuotaNumber,
    /// 12: the quota lacks the permission that the call needs.
    NoPermission,
    /// 4: the length or product is 0 or above the largest request.
    RequestLength,
    /// 5: the handle names no live object.
    NoObject,
    /// 6: the quota does not hold the object.
    NoRecord,
    /// 7: this quota's count is at its greatest value.
    CountFull,
    /// 8: the charge is above the remainder.
    QuotaSpent,
    /// 9: there is no unused record.
    RecordsFull,
    /// 10: the last serial is the greatest that an object can have.
    SerialsSpent,
    /// 11: the request has no base.
    NoSpace,
}

impl Refusal {
    /// Gives the number of the refusal, from 1 to 12.
    pub const fn number(self) -> u8 {
        match self {
            Refusal::HeapLength => 1,
            Refusal::NotSound => 2,
            Refusal::QuotaNumber => 3,
            Refusal::NoPermission => 12,
            Refusal::RequestLength => 4,
            Refusal::NoObject => 5,
            Refusal::NoRecord => 6,
            Refusal::CountFull => 7,
            Refusal::QuotaSpent => 8,
            Refusal::RecordsFull => 9,
            Refusal::SerialsSpent => 10,
            Refusal::NoSpace => 11,
        }
    }
}

impl fmt::Display for Refusal {
    /// Writes the refusal as its number.
    fn fmt(&self, f: &mut fmt::Formatter<'_>) -> fmt::Result {
        write!(f, "refusal {}", self.number())
    }
}

impl std::error::Error for Refusal {}
