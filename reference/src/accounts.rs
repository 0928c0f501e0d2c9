//! The accounting state: quotas, the last serial given and the hold records.
//!
//! Rules, section 3.

use crate::layout::QUARANTINED_SERIAL;
use crate::options::Options;
use crate::permissions::{Permission, ALL_PERMISSIONS};
use crate::refusal::Refusal;

/// The number of quotas.
pub const QUOTAS: usize = 32;

/// The number of hold records.
pub const HOLDS: usize = 512;

/// One quota: what it was granted, what is left of it and what it may do.
#[derive(Clone, Copy, Debug, Default, PartialEq, Eq)]
pub struct Quota {
    /// The grant given at opening.
    pub grant: u32,
    /// What is left of the grant.
    pub remainder: u32,
    /// The permissions that are left, one bit each.
    // OPEN: that they are kept as one byte of bits that are set is a choice; so is that a
    // byte above 7 is not consistent.
    pub permissions: u8,
}

/// One hold record: a quota's holds on the object with this serial.
// OPEN: that quota and count have one byte each is a choice of rule 3.2; larger
// values cannot arise.
#[derive(Clone, Copy, Debug, Default, PartialEq, Eq)]
pub struct Hold {
    /// The serial of the object.
    pub serial: u32,
    /// The number of the quota.
    pub quota: u8,
    /// How often the quota holds the object.
    pub count: u8,
}

impl Hold {
    /// The unused record: all fields zero.
    pub const UNUSED: Hold = Hold {
        serial: 0,
        quota: 0,
        count: 0,
    };

    /// Tells whether the record is used, that is, whether any field is not zero.
    pub fn is_used(self) -> bool {
        self != Hold::UNUSED
    }
}

/// The accounting state (rule 3.2).
#[derive(Clone, Debug, PartialEq, Eq)]
pub struct Accounts {
    /// The quotas, by number.
    pub quotas: [Quota; QUOTAS],
    /// The last serial given.
    pub last_serial: u32,
    /// The number of the heap's kind.
    // OPEN: that kind and edition are kept as bytes, and that other numbers than 0 and 1 are not
    // consistent, are choices.
    pub kind: u8,
    /// The number of the edition of the table of units.
    pub edition: u8,
    /// The hold records.
    pub holds: [Hold; HOLDS],
}

impl Default for Accounts {
    /// Gives the all-zero accounts.
    fn default() -> Self {
        Accounts {
            quotas: [Quota::default(); QUOTAS],
            last_serial: 0,
            kind: 0,
            edition: 0,
            holds: [Hold::UNUSED; HOLDS],
        }
    }
}

impl Accounts {
    /// Gives the accounts of a freshly opened heap.
    pub(crate) fn opened(grants: [u32; QUOTAS], options: Options) -> Accounts {
        Accounts {
            kind: options.kind.number(),
            edition: options.edition.number(),
            quotas: grants.map(|grant| Quota {
                grant,
                remainder: grant,
                permissions: ALL_PERMISSIONS,
            }),
            ..Accounts::default()
        }
    }

    /// Gives what was chosen at opening; none if a number names no choice.
    pub(crate) fn options(&self) -> Option<Options> {
        Options::of(self.kind, self.edition)
    }

    /// Gives the serial of the next object; none if every serial of objects was given.
    pub(crate) fn next_serial(&self) -> Option<u32> {
        let next = self.last_serial.checked_add(1)?;
        (next != QUARANTINED_SERIAL).then_some(next)
    }

    /// Gives the remainder of a quota.
    pub(crate) fn remainder(&self, quota: QuotaNumber) -> u32 {
        self.quotas[quota.index()].remainder
    }

    /// Gives the permission bits of a quota, to be read and changed.
    pub(crate) fn permissions_mut(&mut self, quota: QuotaNumber) -> &mut u8 {
        &mut self.quotas[quota.index()].permissions
    }

    /// Takes a quota number as it comes from the caller of a call that needs a permission, or
    /// gives refusal 3 or 12.
    pub(crate) fn permitted(
        &self,
        number: u32,
        permission: Permission,
    ) -> Result<QuotaNumber, Refusal> {
        let quota = QuotaNumber::new(number)?;
        let left = self.quotas[quota.index()].permissions;
        if permission.is_among(left) {
            Ok(quota)
        } else {
            Err(Refusal::NoPermission)
        }
    }

    /// Finds the place of the quota's record for the object with this serial.
    pub(crate) fn find_hold(&self, quota: QuotaNumber, serial: u32) -> Option<usize> {
        self.holds
            .iter()
            .position(|hold| hold.is_used() && hold.serial == serial && hold.quota == quota.0)
    }

    /// Finds the place of the lowest unused record.
    pub(crate) fn lowest_unused(&self) -> Option<usize> {
        self.holds.iter().position(|hold| !hold.is_used())
    }

    /// Tells whether any quota has a record for the object with this serial.
    pub(crate) fn is_held(&self, serial: u32) -> bool {
        self.holds
            .iter()
            .any(|hold| hold.is_used() && hold.serial == serial)
    }

    /// Gives the place of a record for a new hold, or refusal 8 or 9.
    pub(crate) fn place_for_hold(&self, quota: QuotaNumber, charge: u32) -> Result<usize, Refusal> {
        if charge > self.remainder(quota) {
            return Err(Refusal::QuotaSpent);
        }
        self.lowest_unused().ok_or(Refusal::RecordsFull)
    }

    /// Charges the quota and writes its record with count 1.
    pub(crate) fn add_hold(&mut self, place: usize, quota: QuotaNumber, serial: u32, charge: u32) {
        self.quotas[quota.index()].remainder -= charge;
        self.holds[place] = Hold {
            serial,
            quota: quota.0,
            count: 1,
        };
    }

    /// Clears the quota's record and gives the charge back to the quota.
    pub(crate) fn drop_hold(&mut self, place: usize, quota: QuotaNumber, charge: u32) {
        self.quotas[quota.index()].remainder += charge;
        self.holds[place] = Hold::UNUSED;
    }
}

/// A quota number that is known to be below the number of quotas.
#[derive(Clone, Copy, Debug, PartialEq, Eq)]
pub(crate) struct QuotaNumber(u8);

impl QuotaNumber {
    /// Takes a number as it comes from the caller, or gives refusal 3.
    pub(crate) fn new(number: u32) -> Result<QuotaNumber, Refusal> {
        match u8::try_from(number) {
            Ok(small) if usize::from(small) < QUOTAS => Ok(QuotaNumber(small)),
            _ => Err(Refusal::QuotaNumber),
        }
    }

    /// Gives the place of the quota in the accounts.
    fn index(self) -> usize {
        usize::from(self.0)
    }
}
