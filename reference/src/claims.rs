//! The calls on the holds of an object: claim, release, free-all and can release; and the sweep of
//! blocks that nobody holds.

use crate::accounts::{Accounts, QuotaNumber};
use crate::layout::{store, Block, Handle, Layout};
use crate::permissions::Permission;
use crate::refusal::Refusal;
use crate::sound::sound_layout;

/// Adds one hold of the quota on the object and gives the whole object's length (rules 8.13 to
/// 8.15).
///
/// Only the first hold of a quota on an object is charged.
pub fn claim(
    heap: &[u8],
    accounts: &mut Accounts,
    quota: u32,
    handle: Handle,
) -> Result<u32, Refusal> {
    let layout = sound_layout(heap, accounts)?;
    let quota = accounts.permitted(quota, Permission::Claim)?;
    let object = layout.found(handle).ok_or(Refusal::NoObject)?;
    match accounts.find_hold(quota, object.serial) {
        Some(record) => {
            let count = accounts.holds[record].count;
            accounts.holds[record].count = count.checked_add(1).ok_or(Refusal::CountFull)?;
        }
        None => {
            let record = accounts.place_for_hold(quota, object.charge())?;
            accounts.add_hold(record, quota, object.serial, object.charge());
        }
    }
    Ok(object.handle().length)
}

/// Takes one hold of the quota off the object and gives the quota given back (rules 8.16 to 8.19).
pub fn release(
    heap: &mut [u8],
    accounts: &mut Accounts,
    quota: u32,
    handle: Handle,
) -> Result<u32, Refusal> {
    let layout = sound_layout(heap, accounts)?;
    let quota = QuotaNumber::new(quota)?;
    let (object, record) = held_object(layout.found(handle), accounts, quota)?;
    Ok(release_once(heap, accounts, &layout, quota, object, record))
}

/// Drops every record of the quota and gives the quota given back (rules 8.20 to 8.22).
pub fn free_all(heap: &mut [u8], accounts: &mut Accounts, quota: u32) -> Result<u32, Refusal> {
    let layout = sound_layout(heap, accounts)?;
    let quota = accounts.permitted(quota, Permission::FreeAll)?;
    let mut given_back = 0;
    let mut unheld = Vec::new();
    for object in layout.live() {
        let Some(record) = accounts.find_hold(quota, object.serial) else {
            continue;
        };
        accounts.drop_hold(record, quota, object.charge());
        given_back += object.charge();
        if !accounts.is_held(object.serial) {
            unheld.push(object);
        }
    }
    store(heap, &layout, &layout.without(&unheld));
    Ok(given_back)
}

/// Frees all blocks in quarantine and gives the sum of their sizes.
// OPEN: that bytes of such a block, should they not be zero, stay is a choice.
pub fn sweep(heap: &mut [u8], accounts: &Accounts) -> Result<u32, Refusal> {
    let layout = sound_layout(heap, accounts)?;
    store(heap, &layout, &layout.swept());
    Ok(layout.quarantined().map(|block| block.size).sum())
}

/// Gives the refusal that release would give, and changes nothing (rule 8.31).
pub fn can_release(
    heap: &[u8],
    accounts: &Accounts,
    quota: u32,
    handle: Handle,
) -> Result<(), Refusal> {
    let layout = sound_layout(heap, accounts)?;
    let quota = QuotaNumber::new(quota)?;
    held_object(layout.found(handle), accounts, quota).map(|_| ())
}

/// Gives the object that was looked up and the place of the quota's record for
/// it, or refusal 5 or 6.
pub(crate) fn held_object(
    looked_up: Option<Block>,
    accounts: &Accounts,
    quota: QuotaNumber,
) -> Result<(Block, usize), Refusal> {
    let object = looked_up.ok_or(Refusal::NoObject)?;
    let record = accounts.find_hold(quota, object.serial);
    Ok((object, record.ok_or(Refusal::NoRecord)?))
}

/// Takes one off the record's count, lets go of the object if no quota is left with
/// a record for it, and gives the quota given back.
pub(crate) fn release_once(
    heap: &mut [u8],
    accounts: &mut Accounts,
    layout: &Layout,
    quota: QuotaNumber,
    object: Block,
    record: usize,
) -> u32 {
    if accounts.holds[record].count > 1 {
        accounts.holds[record].count -= 1;
        return 0;
    }
    accounts.drop_hold(record, quota, object.charge());
    if !accounts.is_held(object.serial) {
        store(heap, layout, &layout.without(&[object]));
    }
    object.charge()
}
