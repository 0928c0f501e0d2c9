//! The calls that change nothing themselves: lend, remaining and the listing.

use std::ops::Range;

use crate::accounts::{Accounts, QuotaNumber};
use crate::layout::{Block, Handle};
use crate::refusal::Refusal;
use crate::sound::sound_layout;

/// Gives the range of the heap that the handle has of an object.
pub fn lend(heap: &[u8], accounts: &Accounts, handle: Handle) -> Result<Range<usize>, Refusal> {
    let layout = sound_layout(heap, accounts)?;
    layout.found(handle).ok_or(Refusal::NoObject)?;
    Ok(handle.bytes())
}

/// Gives the part of the heap that the handle has of an object, to be read and written
/// (rule 8.29).
pub fn lend_mut<'heap>(
    heap: &'heap mut [u8],
    accounts: &Accounts,
    handle: Handle,
) -> Result<&'heap mut [u8], Refusal> {
    let range = lend(heap, accounts, handle)?;
    Ok(&mut heap[range])
}

/// Gives the remainder of the quota (rule 8.30).
pub fn remaining(heap: &[u8], accounts: &Accounts, quota: u32) -> Result<u32, Refusal> {
    sound_layout(heap, accounts)?;
    let quota = QuotaNumber::new(quota)?;
    Ok(accounts.remainder(quota))
}

/// Gives the block that starts at the place, if one does: a step of the listing (rules 8.32
/// and 8.33).
pub fn block_at(heap: &[u8], accounts: &Accounts, place: usize) -> Result<Option<Block>, Refusal> {
    let layout = sound_layout(heap, accounts)?;
    let mut blocks = layout.blocks().into_iter();
    Ok(blocks.find(|block| block.offset as usize == place))
}

/// A listing of the heap: it holds the heap and its place in it.
#[derive(Clone, Debug)]
pub struct Walker<'heap> {
    /// The heap that is listed.
    pub heap: &'heap [u8],
    /// The offset at which the next block is looked for.
    pub place: usize,
}

impl<'heap> Walker<'heap> {
    /// Starts a listing at the first block.
    pub fn new(heap: &'heap [u8]) -> Walker<'heap> {
        Walker { heap, place: 0 }
    }

    /// Gives the block at the place and moves the place behind it.
    // OPEN: that the place stays where it is after no block is a choice of rule 8.34.
    pub fn step(&mut self, accounts: &Accounts) -> Result<Option<Block>, Refusal> {
        let block = block_at(self.heap, accounts, self.place)?;
        if let Some(block) = block {
            self.place = block.end() as usize;
        }
        Ok(block)
    }
}
