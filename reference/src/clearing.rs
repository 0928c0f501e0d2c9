//! The call that takes permissions from a quota for good.

use crate::accounts::{Accounts, QuotaNumber};
use crate::permissions::ALL_PERMISSIONS;
use crate::refusal::Refusal;
use crate::sound::sound_layout;

/// Takes from the quota the permissions whose bits are set in the number, and gives the bits
/// that are left.
// OPEN: that the number has 32 bits, of which those above bit 2 say nothing, is a choice.
pub fn clear_permissions(
    heap: &[u8],
    accounts: &mut Accounts,
    quota: u32,
    bits: u32,
) -> Result<u32, Refusal> {
    sound_layout(heap, accounts)?;
    let quota = QuotaNumber::new(quota)?;
    let permissions = accounts.permissions_mut(quota);
    for bit in 0..ALL_PERMISSIONS.count_ones() {
        if bits >> bit & 1 == 1 {
            *permissions &= !(1 << bit);
        }
    }
    Ok(u32::from(*permissions))
}
