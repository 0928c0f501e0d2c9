//! The checks that every call makes first: heap length (rule 2.1) and consistency.
//!
//! Rules 5.1 to 5.8 are asked in their order, by one function for each rule or pair of rules.

use std::collections::BTreeSet;

use crate::accounts::{Accounts, Hold, QUOTAS};
use crate::layout::{walk, Block, Found, Layout, HEADER_BYTES, QUARANTINED_SERIAL, SIZE_UNIT};
use crate::options::{Edition, Kind, Options};
use crate::permissions::ALL_PERMISSIONS;
use crate::refusal::Refusal;

/// The shortest heap allowed, in bytes.
pub const MIN_HEAP: usize = 64;

/// The longest heap allowed, in bytes.
pub const MAX_HEAP: usize = 32_768;

/// The shortest block that is not free: a header and one unit.
const MIN_TAKEN_BLOCK: u32 = HEADER_BYTES + SIZE_UNIT;

/// Tells whether a heap may have this length.
pub(crate) fn length_is_allowed(length: usize) -> bool {
    length.is_multiple_of(SIZE_UNIT as usize) && (MIN_HEAP..=MAX_HEAP).contains(&length)
}

/// Gives refusal 1 or 2 if one of them holds, as every call but open does first.
pub fn check(heap: &[u8], accounts: &Accounts) -> Result<(), Refusal> {
    sound_layout(heap, accounts).map(|_| ())
}

/// Gives the layout of a consistent heap, or refusal 1 or 2.
pub(crate) fn sound_layout(heap: &[u8], accounts: &Accounts) -> Result<Layout, Refusal> {
    if !length_is_allowed(heap.len()) {
        return Err(Refusal::HeapLength);
    }
    let options = accounts.options().ok_or(Refusal::NotSound)?;
    let found = walk(heap).ok_or(Refusal::NotSound)?;
    let live = blocks_that(&found, Block::is_live);
    let sound = heap_is_cut_truly(&found)
        && quarantine_is_allowed(&found, options)
        && last_serial_is_of_an_object(accounts)
        && live_serials_differ_and_were_given(&live, accounts)
        && used_records_are_proper(&live, accounts)
        && no_two_used_records_agree(accounts)
        && every_object_has_a_record(&live, accounts)
        && every_grant_is_accounted_for(&live, accounts)
        && every_object_fits_its_unit(&live, options.edition)
        && permissions_are_three_bits(accounts);
    if !sound {
        return Err(Refusal::NotSound);
    }
    let taken = blocks_that(&found, |block| !block.is_free());
    let by_offset = taken.iter().map(|block| (block.offset, *block)).collect();
    Ok(Layout::new(heap.len() as u32, options, by_offset))
}

/// Gives those blocks that the walk found and that are as asked for.
fn blocks_that(found: &[Found], asked: fn(Block) -> bool) -> Vec<Block> {
    let blocks = found.iter().map(|found| found.block);
    blocks.filter(|block| asked(*block)).collect()
}

/// Gives the used records of the accounts.
fn used_records(accounts: &Accounts) -> impl Iterator<Item = Hold> + '_ {
    accounts.holds.iter().copied().filter(|hold| hold.is_used())
}

/// Rules 5.1 and 5.2: the heap is cut into blocks.
///
/// The walk itself has shown that the sizes lead from offset 0 to the end.
fn heap_is_cut_truly(found: &[Found]) -> bool {
    back_sizes_are_true(found) && taken_blocks_are_long_enough(found) && no_two_free_touch(found)
}

/// Rule 5.1, back sizes: 0 for the first block, else the size of the block before.
fn back_sizes_are_true(found: &[Found]) -> bool {
    let sizes_before = [0]
        .into_iter()
        .chain(found.iter().map(|found| found.block.size));
    found
        .iter()
        .zip(sizes_before)
        .all(|(found, size_before)| found.back_size == size_before)
}

/// Rule 5.2, live blocks, and quarantined ones: 16 bytes or more.
fn taken_blocks_are_long_enough(found: &[Found]) -> bool {
    found
        .iter()
        .all(|found| found.block.is_free() || found.block.size >= MIN_TAKEN_BLOCK)
}

/// Rule 5.2, free blocks: no two are neighbours.
fn no_two_free_touch(found: &[Found]) -> bool {
    found
        .windows(2)
        .all(|pair| !(pair[0].block.is_free() && pair[1].block.is_free()))
}

/// A plain heap has no block in quarantine.
fn quarantine_is_allowed(found: &[Found], options: Options) -> bool {
    options.kind == Kind::Quarantine || blocks_that(found, Block::is_quarantined).is_empty()
}

/// The serial of quarantined blocks was not given to an object.
fn last_serial_is_of_an_object(accounts: &Accounts) -> bool {
    accounts.last_serial < QUARANTINED_SERIAL
}

/// Rules 5.3 and 5.4: live serials differ, and none is above the last serial.
fn live_serials_differ_and_were_given(live: &[Block], accounts: &Accounts) -> bool {
    let serials: BTreeSet<u32> = live.iter().map(|block| block.serial).collect();
    serials.len() == live.len() && serials.iter().all(|serial| *serial <= accounts.last_serial)
}

/// Rule 5.5: a used record is of a live object, with a quota that exists and a count.
fn used_records_are_proper(live: &[Block], accounts: &Accounts) -> bool {
    let serials: BTreeSet<u32> = live.iter().map(|block| block.serial).collect();
    used_records(accounts).all(|hold| {
        serials.contains(&hold.serial) && usize::from(hold.quota) < QUOTAS && hold.count >= 1
    })
}

/// Rule 5.6: used records differ in serial or quota.
fn no_two_used_records_agree(accounts: &Accounts) -> bool {
    let mut seen = BTreeSet::new();
    used_records(accounts).all(|hold| seen.insert((hold.serial, hold.quota)))
}

/// Rule 5.7: every object is held.
fn every_object_has_a_record(live: &[Block], accounts: &Accounts) -> bool {
    let held: BTreeSet<u32> = used_records(accounts).map(|hold| hold.serial).collect();
    live.iter().all(|block| held.contains(&block.serial))
}

/// Rule 5.8: a grant is the remainder and the charges of what the quota holds.
fn every_grant_is_accounted_for(live: &[Block], accounts: &Accounts) -> bool {
    let held: BTreeSet<(u32, u8)> = used_records(accounts)
        .map(|hold| (hold.serial, hold.quota))
        .collect();
    let mut sums = accounts.quotas.map(|quota| u64::from(quota.remainder));
    for block in live {
        for (_, quota) in held.range((block.serial, 0)..=(block.serial, u8::MAX)) {
            // Rule 5.5 holds here, so the quota number is in range.
            if let Some(sum) = sums.get_mut(usize::from(*quota)) {
                *sum += u64::from(block.charge());
            }
        }
    }
    let grants = accounts.quotas.map(|quota| u64::from(quota.grant));
    sums == grants
}

/// Rule 5.10: base and length of an object are multiples of the unit of that length.
// OPEN: that blocks in quarantine need not fit a unit is a choice.
fn every_object_fits_its_unit(live: &[Block], edition: Edition) -> bool {
    live.iter().all(|block| {
        let object = block.handle();
        let unit = edition.unit_of(object.length);
        object.length.is_multiple_of(unit) && object.base.is_multiple_of(unit)
    })
}

/// No quota has a permission bit that means nothing.
// OPEN: that other bits make the accounts inconsistent is a choice.
fn permissions_are_three_bits(accounts: &Accounts) -> bool {
    let mut quotas = accounts.quotas.iter();
    quotas.all(|quota| quota.permissions <= ALL_PERMISSIONS)
}
