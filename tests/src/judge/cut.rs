//! A heap's bytes read as blocks and blocks written as bytes, by the harness's own code.

use std::ops::Range;

use lokhazim_reference::{Block, Handle};

use crate::state::State;

/// The serial of a quarantined block (rule 22.3).
pub const QUARANTINED: u32 = 4_294_967_295;

/// The greatest serial that an object can have (rule 22.9).
pub const GREATEST_SERIAL: u32 = 4_294_967_294;

/// A block as its header states it, and the size that it states for the block before.
#[derive(Clone, Copy, Debug, PartialEq, Eq)]
pub struct Stated {
    /// The block.
    pub block: Block,
    /// The stated size of the block before, in bytes.
    pub back_size: u32,
}

/// What a walk over stated sizes met, and whether it ended at the heap's end.
pub struct Walk {
    /// The blocks in order.
    pub blocks: Vec<Stated>,
    /// Whether the last block ends at the heap's end.
    pub complete: bool,
}

/// Reads so many bytes from an offset as a little-endian number.
fn number(heap: &[u8], offset: usize, bytes: usize) -> u32 {
    let digits = heap[offset..offset + bytes].iter().rev();
    digits.fold(0, |value, byte| value << 8 | u32::from(*byte))
}

/// Walks by the stated sizes for as long as they lead to a header inside the heap.
pub fn walk(heap: &[u8]) -> Walk {
    let mut blocks = Vec::new();
    let mut at = 0;
    while at + 8 <= heap.len() {
        let size = number(heap, at, 2) * 8;
        if size == 0 {
            break;
        }
        let block = Block {
            offset: at as u32,
            size,
            serial: number(heap, at + 4, 4),
        };
        let back_size = number(heap, at + 2, 2) * 8;
        blocks.push(Stated { block, back_size });
        at += size as usize;
    }
    let complete = at == heap.len();
    Walk { blocks, complete }
}

/// Gives the blocks that a walk meets.
pub fn blocks(heap: &[u8]) -> Vec<Block> {
    let met = walk(heap).blocks;
    met.into_iter().map(|stated| stated.block).collect()
}

/// Gives the handle of a live block's object.
pub fn handle_of(block: Block) -> Handle {
    Handle {
        base: block.offset + 8,
        length: block.size.saturating_sub(8),
        serial: block.serial,
    }
}

/// Tells whether a block with this serial is live: neither free nor quarantined.
pub fn is_live(serial: u32) -> bool {
    (1..=GREATEST_SERIAL).contains(&serial)
}

/// Gives the live blocks that a walk meets.
pub fn live_blocks(heap: &[u8]) -> Vec<Block> {
    let mut live = blocks(heap);
    live.retain(|block| is_live(block.serial));
    live
}

/// Gives the handles of the live blocks that a walk meets.
pub fn live_handles(heap: &[u8]) -> Vec<Handle> {
    live_blocks(heap).into_iter().map(handle_of).collect()
}

/// Gives the places of the quarantined blocks that a walk meets.
pub fn quarantined(heap: &[u8]) -> Vec<Range<usize>> {
    let mut waiting = blocks(heap);
    waiting.retain(|block| block.serial == QUARANTINED);
    let place = |block: Block| block.offset as usize..(block.offset + block.size) as usize;
    waiting.into_iter().map(place).collect()
}

/// Gives the eight bytes of a header; the sizes are in bytes.
pub fn header(size: u32, back_size: u32, serial: u32) -> [u8; 8] {
    let [a, b, ..] = (size / 8).to_le_bytes();
    let [c, d, ..] = (back_size / 8).to_le_bytes();
    let [e, f, g, h] = serial.to_le_bytes();
    [a, b, c, d, e, f, g, h]
}

/// Writes eight bytes at an offset.
pub fn put(heap: &mut [u8], offset: u32, bytes: [u8; 8]) {
    let start = offset as usize;
    heap[start..start + 8].copy_from_slice(&bytes);
}

/// Tells whether a handle has the serial of a whole one and at least one byte, and all its bytes
/// are the whole one's (rule 4.3).
pub fn is_part(handle: Handle, whole: Handle) -> bool {
    let range = |h: Handle| (u64::from(h.base), u64::from(h.base) + u64::from(h.length));
    let ((start, end), (first, behind)) = (range(handle), range(whole));
    handle.serial == whole.serial && start < end && first <= start && end <= behind
}

/// Tells whether a handle names no live object although the eight bytes before its base look like
/// the header of one.
pub fn looks_alive(heap: &[u8], handle: Handle) -> bool {
    let start = (handle.base as usize).wrapping_sub(8);
    let Some(bytes) = start.checked_add(8).and_then(|end| heap.get(start..end)) else {
        return false;
    };
    let (size, serial) = (number(bytes, 0, 2) * 8, number(bytes, 4, 4));
    let alike = serial != 0 && serial == handle.serial && size == handle.length.wrapping_add(8);
    alike && !live_handles(heap).iter().any(|h| is_part(handle, *h))
}

/// Tells whether a handle names a live object and is not the whole one's.
pub fn is_narrowed(heap: &[u8], handle: Handle) -> bool {
    let mut live = live_handles(heap).into_iter();
    live.any(|whole| handle != whole && is_part(handle, whole))
}

/// On which sides blocks that became free were joined, over one call.
#[derive(Clone, Copy, Debug, Default, PartialEq, Eq)]
pub struct Joins {
    /// A freed block joined the free block in front of it alone.
    pub front: u64,
    /// A freed block joined the free block behind it alone.
    pub behind: u64,
    /// A freed block joined free blocks on both sides.
    pub both: u64,
    /// A freed block has no free neighbour.
    pub neither: u64,
}

/// Gives the joins of a call that took the first state to the second and made no object where one
/// was: a block was joined on a side where no block starts any more.
pub fn joins(before: &State, after: &State) -> Joins {
    let (old, new) = (blocks(&before.heap), blocks(&after.heap));
    let now_at = |offset: u32| new.iter().find(|block| block.offset == offset);
    let mut joins = Joins::default();
    for block in old.iter().filter(|block| block.serial != 0) {
        let (now, end) = (now_at(block.offset), block.offset + block.size);
        if now.is_some_and(|now| now.serial != 0) {
            continue;
        }
        let joined_behind = end < after.heap.len() as u32 && now_at(end).is_none();
        match (now.is_none(), joined_behind) {
            (true, true) => joins.both += 1,
            (true, false) => joins.front += 1,
            (false, true) => joins.behind += 1,
            (false, false) => joins.neither += 1,
        }
    }
    joins
}
