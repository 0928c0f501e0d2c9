//! Handles: those of live objects, and those that name none.

use lokhazim_reference::{Block, Handle};

use crate::cases::narrowing::{beside_handle, sometimes_narrowed};
use crate::judge::cut::{blocks, handle_of, is_live};
use crate::seed::Seed;

/// What the choice of arguments knows of a heap.
pub struct View<'heap> {
    /// The bytes of the heap.
    pub heap: &'heap [u8],
    /// The blocks that a walk meets.
    pub blocks: Vec<Block>,
    /// The handles of live blocks.
    pub live: Vec<Handle>,
    /// Handles that were given out and may be stale.
    pub old: &'heap [Handle],
}

impl<'heap> View<'heap> {
    /// Looks at a heap.
    pub fn new(heap: &'heap [u8], old: &'heap [Handle]) -> View<'heap> {
        let blocks = blocks(heap);
        let live = blocks.iter().copied().filter(|b| is_live(b.serial));
        let live = live.map(handle_of).collect();
        View {
            heap,
            blocks,
            live,
            old,
        }
    }

    /// Gives the sizes of the free blocks.
    pub fn free_sizes(&self) -> Vec<u32> {
        let free = self.blocks.iter().filter(|block| block.serial == 0);
        free.map(|block| block.size).collect()
    }
}

/// Gives a handle of a live object, or one that names none where there is no object.
pub fn live_handle(seed: &mut Seed, view: &View) -> Handle {
    match seed.any_of(&view.live) {
        Some(handle) => handle,
        None => forged_handle(seed, view),
    }
}

/// Gives a handle that most likely names no live object.
pub fn forged_handle(seed: &mut Seed, view: &View) -> Handle {
    match seed.below(12) {
        0 => seed.any_of(view.old).unwrap_or_default(),
        1 => handle_of_no_object(seed, view),
        2..=6 => handle_to_look_alike(seed, view),
        7 => Handle {
            base: seed.odd_word(),
            length: seed.odd_word(),
            serial: seed.odd_word(),
        },
        8 | 9 => {
            let whole = seed.any_of(&view.live).unwrap_or_default();
            beside_handle(seed, whole)
        }
        _ => changed_handle(seed, view),
    }
}

/// Gives the handle that the object of a free or quarantined block would have, now and then a part
/// of it.
fn handle_of_no_object(seed: &mut Seed, view: &View) -> Handle {
    let mut others = view.blocks.clone();
    others.retain(|block| !is_live(block.serial));
    let whole = seed.any_of(&others).map(handle_of).unwrap_or_default();
    sometimes_narrowed(seed, 30, whole)
}

/// Reads eight bytes inside an object as a header and gives the handle that it would have. A few
/// places are tried until one looks like a live block.
fn handle_to_look_alike(seed: &mut Seed, view: &View) -> Handle {
    let mut handle = Handle::default();
    for _ in 0..8 {
        let Some(object) = seed.any_of(&view.live) else {
            break;
        };
        let at = object.base + 8 * seed.below((object.length / 8).max(1));
        handle = handle_at(view.heap, at);
        if handle.serial != 0 && handle.length >= 8 {
            break;
        }
    }
    handle
}

/// Reads the eight bytes at an offset as a header and gives its object's handle.
fn handle_at(heap: &[u8], at: u32) -> Handle {
    let start = at as usize;
    let Some(bytes) = heap.get(start..start + 8) else {
        return Handle::default();
    };
    let units = u16::from_le_bytes([bytes[0], bytes[1]]);
    Handle {
        base: at + 8,
        length: (8 * u32::from(units)).saturating_sub(8),
        serial: u32::from_le_bytes([bytes[4], bytes[5], bytes[6], bytes[7]]),
    }
}

/// Changes one or more numbers of a live or an old handle.
fn changed_handle(seed: &mut Seed, view: &View) -> Handle {
    let mut handle = match seed.any_of(&view.live) {
        Some(handle) => handle,
        None => seed.any_of(view.old).unwrap_or_default(),
    };
    let by = seed.pick(&[1, 8, 16, 256, 65_536, 1 << 31]);
    match seed.below(7) {
        0 => handle.base = handle.base.wrapping_add(by),
        1 => handle.base = handle.base.wrapping_sub(by),
        2 => handle.length = handle.length.wrapping_add(by),
        3 => handle.length = handle.length.wrapping_sub(by),
        4 => {
            handle.serial = handle
                .serial
                .wrapping_add(seed.pick(&[1, 128, 256, 512, 2_048, 65_536]))
        }
        5 => handle.serial = seed.pick(&[0, u32::MAX, handle.serial.wrapping_sub(1)]),
        _ => {
            let other = seed.any_of(&view.live).unwrap_or_default();
            handle.serial = other.serial;
        }
    }
    handle
}
