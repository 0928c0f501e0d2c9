//! The calls that make objects: open, allocate, allocate array and reallocate.

use std::collections::BTreeMap;

use crate::accounts::{Accounts, QuotaNumber, QUOTAS};
use crate::claims::{held_object, release_once};
use crate::layout::{store, write_headers, Block, Handle, Layout, HEADER_BYTES};
use crate::options::Options;
use crate::permissions::Permission;
use crate::refusal::Refusal;
use crate::rounding::Rounded;
use crate::sound::{length_is_allowed, sound_layout};

/// Opens a plain heap with the first edition of the table of units.
pub fn open(heap: &mut [u8], grants: [u32; QUOTAS]) -> (Accounts, Result<(), Refusal>) {
    open_with(heap, grants, Options::default())
}

/// Clears the heap, makes it one free block and gives fresh accounts (rules 8.2 to 8.4).
///
/// A refused open leaves the heap as it was and gives all-zero accounts.
// OPEN: whether all-zero accounts have all permissions cleared is free; taken by
// the letter, every bit is 0.
pub fn open_with(
    heap: &mut [u8],
    grants: [u32; QUOTAS],
    options: Options,
) -> (Accounts, Result<(), Refusal>) {
    if !length_is_allowed(heap.len()) {
        return (Accounts::default(), Err(Refusal::HeapLength));
    }
    heap.fill(0);
    let one_free_block = Layout::new(heap.len() as u32, options, BTreeMap::new());
    write_headers(heap, &one_free_block);
    (Accounts::opened(grants, options), Ok(()))
}

/// Makes a zeroed object of at least this length, held once by the quota (rules 8.5 to 8.11).
pub fn allocate(
    heap: &mut [u8],
    accounts: &mut Accounts,
    quota: u32,
    length: u32,
) -> Result<Handle, Refusal> {
    allocate_bytes(heap, accounts, quota, u64::from(length))
}

/// Allocates as many bytes as the true product of count and size (rule 8.12).
pub fn allocate_array(
    heap: &mut [u8],
    accounts: &mut Accounts,
    quota: u32,
    count: u32,
    size: u32,
) -> Result<Handle, Refusal> {
    allocate_bytes(heap, accounts, quota, u64::from(count) * u64::from(size))
}

/// Allocates a new object, copies the old one into it and releases the old one once
/// (rules 8.23 to 8.27). The handle is that of the whole old object.
pub fn reallocate(
    heap: &mut [u8],
    accounts: &mut Accounts,
    quota: u32,
    handle: Handle,
    length: u32,
) -> Result<Handle, Refusal> {
    let layout = sound_layout(heap, accounts)?;
    let quota = accounts.permitted(quota, Permission::Allocate)?;
    let rounded = layout.options.edition.round(u64::from(length))?;
    let (old, record) = held_object(layout.named(handle), accounts, quota)?;
    let plan = Plan::new(&layout, accounts, quota, rounded)?;
    let with_both = plan.carry_out(heap, accounts, &layout);
    copy_object(heap, old, plan.block);
    release_once(heap, accounts, &with_both, quota, old, record);
    Ok(plan.block.handle())
}

/// Allocates for a request in whole numbers.
fn allocate_bytes(
    heap: &mut [u8],
    accounts: &mut Accounts,
    quota: u32,
    request: u64,
) -> Result<Handle, Refusal> {
    let layout = sound_layout(heap, accounts)?;
    let quota = accounts.permitted(quota, Permission::Allocate)?;
    let rounded = layout.options.edition.round(request)?;
    let plan = Plan::new(&layout, accounts, quota, rounded)?;
    plan.carry_out(heap, accounts, &layout);
    Ok(plan.block.handle())
}

/// An allocation that passed every check and has changed nothing yet.
struct Plan {
    quota: QuotaNumber,
    record: usize,
    block: Block,
}

impl Plan {
    /// Decides place, serial and record of a new object, or gives refusal 8 to 11.
    fn new(
        layout: &Layout,
        accounts: &Accounts,
        quota: QuotaNumber,
        rounded: Rounded,
    ) -> Result<Plan, Refusal> {
        let size = rounded.length + HEADER_BYTES;
        let record = accounts.place_for_hold(quota, size)?;
        let serial = accounts.next_serial().ok_or(Refusal::SerialsSpent)?;
        let base = layout.lowest_base(rounded).ok_or(Refusal::NoSpace)?;
        let block = Block {
            offset: base - HEADER_BYTES,
            size,
            serial,
        };
        Ok(Plan {
            quota,
            record,
            block,
        })
    }

    /// Writes the new object into heap and accounts and gives the new layout.
    fn carry_out(&self, heap: &mut [u8], accounts: &mut Accounts, layout: &Layout) -> Layout {
        let Plan {
            quota,
            record,
            block,
        } = *self;
        accounts.last_serial = block.serial;
        accounts.add_hold(record, quota, block.serial, block.charge());
        let with_object = layout.with(block);
        store(heap, layout, &with_object);
        with_object
    }
}

/// Copies from one object to another as many bytes as both have (rule 8.25).
fn copy_object(heap: &mut [u8], from: Block, to: Block) {
    let length = from.object_bytes().len().min(to.object_bytes().len());
    let start = from.object_bytes().start;
    heap.copy_within(start..start + length, to.object_bytes().start);
}
