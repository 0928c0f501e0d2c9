//! The heap as a map of the blocks that are not free, and the way back from the map to bytes
//! (rules, section 2).

use std::collections::{BTreeMap, BTreeSet};
use std::ops::Range;

use crate::options::{Kind, Options};
use crate::rounding::Rounded;

/// The bytes of a block's header.
pub const HEADER_BYTES: u32 = 8;

/// The unit, in bytes, in which a header states the two sizes.
pub const SIZE_UNIT: u32 = 8;

/// The serial of a block in quarantine, which no object has.
pub const QUARANTINED_SERIAL: u32 = u32::MAX;

/// What a caller has of an object, or of a part of it: it names the object if all three agree
/// (rule 4.3), and finds it from any part with its serial.
#[derive(Clone, Copy, Debug, Default, PartialEq, Eq, Hash)]
pub struct Handle {
    /// Offset of the first byte; for a whole object the first after the header.
    pub base: u32,
    /// Length in bytes.
    pub length: u32,
    /// Serial of the object.
    pub serial: u32,
}

impl Handle {
    /// Gives the offset of the first byte behind the range, in whole numbers.
    fn end(self) -> u64 {
        u64::from(self.base) + u64::from(self.length)
    }

    /// Gives the place of the range in the heap.
    pub(crate) fn bytes(self) -> Range<usize> {
        bytes(self.base, self.length)
    }
}

/// A block of the heap.
// OPEN: that the listing gives offset, size in bytes and serial of a block is a
// choice of rule 8.32.
#[derive(Clone, Copy, Debug, PartialEq, Eq, Hash)]
pub struct Block {
    /// Offset of the block's header.
    pub offset: u32,
    /// Size in bytes, header included.
    pub size: u32,
    /// Serial of a live block, 0 for a free one, the greatest number for one in quarantine.
    pub serial: u32,
}

impl Block {
    /// Tells whether the block is free.
    pub fn is_free(self) -> bool {
        self.serial == 0
    }

    /// Tells whether the block is in quarantine.
    pub fn is_quarantined(self) -> bool {
        self.serial == QUARANTINED_SERIAL
    }

    /// Tells whether the block has an object.
    pub fn is_live(self) -> bool {
        !self.is_free() && !self.is_quarantined()
    }

    /// Gives the same block in quarantine.
    fn quarantined(self) -> Block {
        Block {
            serial: QUARANTINED_SERIAL,
            ..self
        }
    }

    /// Gives the offset of the first byte behind the block.
    pub(crate) fn end(self) -> u32 {
        self.offset + self.size
    }

    /// Gives the handle of the object in a live block.
    pub(crate) fn handle(self) -> Handle {
        Handle {
            base: self.offset + HEADER_BYTES,
            length: self.size - HEADER_BYTES,
            serial: self.serial,
        }
    }

    /// Gives what a quota pays for the object: its length and the header.
    pub(crate) fn charge(self) -> u32 {
        self.handle().length + HEADER_BYTES
    }

    /// Gives the place of the object's bytes in the heap.
    pub(crate) fn object_bytes(self) -> Range<usize> {
        self.handle().bytes()
    }
}

/// A block as the walk finds it, with the size it states for the block before.
#[derive(Clone, Copy, Debug)]
pub(crate) struct Found {
    pub(crate) block: Block,
    pub(crate) back_size: u32,
}

/// Gives the range of so many bytes from an offset.
fn bytes(offset: u32, length: u32) -> Range<usize> {
    let start = offset as usize;
    start..start + length as usize
}

/// Reads the header at an offset, if the heap has its eight bytes.
fn read_header(heap: &[u8], offset: u32) -> Option<Found> {
    let header = heap.get(bytes(offset, HEADER_BYTES))?;
    let size_units = u16::from_le_bytes([header[0], header[1]]);
    let back_units = u16::from_le_bytes([header[2], header[3]]);
    let serial = u32::from_le_bytes([header[4], header[5], header[6], header[7]]);
    Some(Found {
        block: Block {
            offset,
            size: u32::from(size_units) * SIZE_UNIT,
            serial,
        },
        back_size: u32::from(back_units) * SIZE_UNIT,
    })
}

/// Writes the header of a block.
fn write_header(heap: &mut [u8], block: Block, back_size: u32) {
    // A heap has at most 4,096 units, so both sizes fit 16 bits.
    let size_units = (block.size / SIZE_UNIT) as u16;
    let back_units = (back_size / SIZE_UNIT) as u16;
    let header = &mut heap[bytes(block.offset, HEADER_BYTES)];
    header[0..2].copy_from_slice(&size_units.to_le_bytes());
    header[2..4].copy_from_slice(&back_units.to_le_bytes());
    header[4..8].copy_from_slice(&block.serial.to_le_bytes());
}

/// Walks from offset 0 by the stated sizes; none if it does not end at the heap's end.
pub(crate) fn walk(heap: &[u8]) -> Option<Vec<Found>> {
    let mut found = Vec::new();
    let mut offset = 0;
    while (offset as usize) < heap.len() {
        let next = read_header(heap, offset)?;
        if next.block.size == 0 {
            return None;
        }
        offset = next.block.end();
        found.push(next);
    }
    (offset as usize == heap.len()).then_some(found)
}

/// The live and the quarantined blocks of a heap by offset, and the free blocks between them.
#[derive(Clone, Debug)]
pub(crate) struct Layout {
    heap_length: u32,
    pub(crate) options: Options,
    taken: BTreeMap<u32, Block>,
    free: Vec<Block>,
}

impl Layout {
    /// Makes the layout with these live and quarantined blocks; the gaps are its free blocks.
    pub(crate) fn new(heap_length: u32, options: Options, taken: BTreeMap<u32, Block>) -> Layout {
        let free = gaps(heap_length, &taken);
        Layout {
            heap_length,
            options,
            taken,
            free,
        }
    }

    /// Gives the layout of the same heap with other live and quarantined blocks.
    fn changed(&self, change: impl FnOnce(&mut BTreeMap<u32, Block>)) -> Layout {
        let mut taken = self.taken.clone();
        change(&mut taken);
        Layout::new(self.heap_length, self.options, taken)
    }

    /// Gives the same layout with one more live block.
    pub(crate) fn with(&self, block: Block) -> Layout {
        self.changed(|taken| {
            taken.insert(block.offset, block);
        })
    }

    /// Gives the same layout without these live blocks, which are free or, in a heap with
    /// quarantine, wait there.
    pub(crate) fn without(&self, unheld: &[Block]) -> Layout {
        self.changed(|taken| {
            for block in unheld {
                match self.options.kind {
                    Kind::Plain => taken.remove(&block.offset),
                    Kind::Quarantine => taken.insert(block.offset, block.quarantined()),
                };
            }
        })
    }

    /// Gives the same layout with nothing in quarantine.
    pub(crate) fn swept(&self) -> Layout {
        self.changed(|taken| taken.retain(|_, block| !block.is_quarantined()))
    }

    /// Gives the live and the quarantined blocks in order.
    fn taken(&self) -> impl Iterator<Item = Block> + '_ {
        self.taken.values().copied()
    }

    /// Gives the live blocks in order.
    pub(crate) fn live(&self) -> impl Iterator<Item = Block> + '_ {
        self.taken().filter(|block| block.is_live())
    }

    /// Gives the quarantined blocks in order.
    pub(crate) fn quarantined(&self) -> impl Iterator<Item = Block> + '_ {
        self.taken().filter(|block| block.is_quarantined())
    }

    /// Gives all blocks in order.
    pub(crate) fn blocks(&self) -> Vec<Block> {
        let mut blocks: Vec<Block> = self.taken().chain(self.free.iter().copied()).collect();
        blocks.sort_by_key(|block| block.offset);
        blocks
    }

    /// Finds the live block whose object has the handle's serial and all bytes of its range,
    /// of which there must be at least one.
    pub(crate) fn found(&self, handle: Handle) -> Option<Block> {
        let object = self.live().find(|block| block.serial == handle.serial)?;
        let whole = object.handle();
        let inside = handle.base >= whole.base && handle.end() <= whole.end();
        (inside && handle.length > 0).then_some(object)
    }

    /// Finds the live block whose whole object the handle names.
    pub(crate) fn named(&self, handle: Handle) -> Option<Block> {
        let offset = handle.base.checked_sub(HEADER_BYTES)?;
        let block = *self.taken.get(&offset)?;
        (block.is_live() && block.handle() == handle).then_some(block)
    }

    /// Finds the base of rule 8.6: the lowest multiple of the unit with room for header
    /// and object.
    pub(crate) fn lowest_base(&self, rounded: Rounded) -> Option<u32> {
        self.free
            .iter()
            .map(|gap| (gap, lowest_base_from(gap.offset, rounded.alignment)))
            .find(|(gap, base)| base + rounded.length <= gap.end())
            .map(|(_, base)| base)
    }
}

/// Gives the lowest multiple of the alignment that has room for a header from the offset on.
fn lowest_base_from(offset: u32, alignment: u32) -> u32 {
    (offset + HEADER_BYTES).next_multiple_of(alignment)
}

/// Gives the gaps between these blocks as free blocks.
fn gaps(heap_length: u32, taken: &BTreeMap<u32, Block>) -> Vec<Block> {
    let mut free = Vec::new();
    let mut covered = 0;
    let starts_and_ends = taken.values().map(|block| (block.offset, block.end()));
    for (start, end) in starts_and_ends.chain([(heap_length, heap_length)]) {
        if start > covered {
            free.push(Block {
                offset: covered,
                size: start - covered,
                serial: 0,
            });
        }
        covered = end;
    }
    free
}

/// Changes the heap's bytes from one layout to another.
///
/// Objects that come or go become zero, headers that have gone become zero, and
/// every header is written again. Other bytes stay (rules 8.1, 8.8 and 8.19).
pub(crate) fn store(heap: &mut [u8], before: &Layout, after: &Layout) {
    clear_objects(heap, before, after);
    clear_objects(heap, after, before);
    clear_vanished_headers(heap, before, after);
    write_headers(heap, after);
}

/// Clears the objects of the first layout that the second does not have.
fn clear_objects(heap: &mut [u8], first: &Layout, second: &Layout) {
    for block in first.live() {
        if second.taken.get(&block.offset) != Some(&block) {
            heap[block.object_bytes()].fill(0);
        }
    }
}

/// Clears each header that starts a block before and none after.
fn clear_vanished_headers(heap: &mut [u8], before: &Layout, after: &Layout) {
    let starts: BTreeSet<u32> = after.blocks().iter().map(|block| block.offset).collect();
    for block in before.blocks() {
        if !starts.contains(&block.offset) {
            heap[bytes(block.offset, HEADER_BYTES)].fill(0);
        }
    }
}

/// Writes the header of every block of the layout.
pub(crate) fn write_headers(heap: &mut [u8], layout: &Layout) {
    let mut back_size = 0;
    for block in layout.blocks() {
        write_header(heap, block, back_size);
        back_size = block.size;
    }
}
