//! A copy of a heap as it is lent to the proved code, with guard bytes around it.

/// The guard bytes on each side; a multiple of every unit.
const GUARD: usize = 64;

/// What every guard byte holds.
const FILL: u8 = 0xC7;

/// A lent copy of a heap.
pub struct Lent {
    bytes: Vec<u8>,
    start: usize,
    length: usize,
}

impl Lent {
    /// Copies a heap to an address that is a multiple of 64, with guard bytes around it.
    pub fn guarded(heap: &[u8]) -> Lent {
        let bytes = vec![FILL; heap.len() + 3 * GUARD];
        let start = GUARD + bytes.as_ptr().align_offset(GUARD) % GUARD;
        Lent::filled(bytes, start, heap)
    }

    /// Copies a heap to an allocation of its exact length, whose ends a memory checker watches.
    pub fn exact(heap: &[u8]) -> Lent {
        Lent::filled(vec![FILL; heap.len()], 0, heap)
    }

    /// Puts the heap's bytes where they belong.
    fn filled(mut bytes: Vec<u8>, start: usize, heap: &[u8]) -> Lent {
        bytes[start..start + heap.len()].copy_from_slice(heap);
        Lent {
            bytes,
            start,
            length: heap.len(),
        }
    }

    /// The part that is lent.
    pub fn part(&mut self) -> &mut [u8] {
        &mut self.bytes[self.start..self.start + self.length]
    }

    /// Tells whether every byte outside the lent part is as it was.
    pub fn guards_hold(&self) -> bool {
        let (front, rest) = self.bytes.split_at(self.start);
        let mut guards = front.iter().chain(&rest[self.length..]);
        guards.all(|byte| *byte == FILL)
    }
}
