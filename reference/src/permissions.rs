//! What a quota may do.

/// The permission bits of a quota from which nothing was cleared.
pub const ALL_PERMISSIONS: u8 = 0b111;

/// A permission of a quota.
#[derive(Clone, Copy, Debug, PartialEq, Eq)]
pub(crate) enum Permission {
    /// To make objects: allocate, allocate array and reallocate.
    Allocate,
    /// To claim objects.
    Claim,
    /// To drop all holds at once.
    FreeAll,
}

impl Permission {
    /// The permissions from bit 0 on.
    const BY_BIT: [Permission; 3] = [Permission::Allocate, Permission::Claim, Permission::FreeAll];

    /// Tells whether the permission is one of those whose bits are set.
    pub(crate) fn is_among(self, bits: u8) -> bool {
        let by_bit = Permission::BY_BIT.into_iter().enumerate();
        let mut set = by_bit.filter(|(bit, _)| bits >> bit & 1 == 1);
        set.any(|(_, permission)| permission == self)
    }
}
