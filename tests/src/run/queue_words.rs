//! A queue as words where they lie, with guard words around them.

use lokhazim_reference::{Handle, Queue, QUEUE_PLACES};

/// The place of the first handle; sender, receiver and count stand before it.
const FIRST: usize = 3;

/// How many words a queue is.
pub const QUEUE_WORDS: usize = FIRST + 3 * QUEUE_PLACES;

/// The guard words on each side.
const GUARD: usize = 16;

/// What every guard word holds.
const FILL: u32 = 0xC7C7_C7C7;

/// Words of a queue that are lent to the proved code.
pub struct QueueWords {
    words: Vec<u32>,
}

impl QueueWords {
    /// Puts a queue between guard words.
    pub fn guarded(queue: &Queue) -> QueueWords {
        let places = queue.places.iter();
        let places = places.flat_map(|handle| [handle.base, handle.length, handle.serial]);
        let own = [queue.sender, queue.receiver, queue.count];
        let guard = [FILL; GUARD];
        let words = guard.into_iter().chain(own).chain(places).chain(guard);
        QueueWords {
            words: words.collect(),
        }
    }

    /// The part that is lent.
    pub fn part(&mut self) -> &mut [u32; QUEUE_WORDS] {
        let part = &mut self.words[GUARD..GUARD + QUEUE_WORDS];
        part.try_into().expect("the part has this length")
    }

    /// Tells whether every word outside the lent part is as it was.
    pub fn guards_hold(&self) -> bool {
        let (front, rest) = self.words.split_at(GUARD);
        let mut guards = front.iter().chain(&rest[QUEUE_WORDS..]);
        guards.all(|word| *word == FILL)
    }
}

/// Gives the queue that words hold.
pub fn queue_of(words: &[u32; QUEUE_WORDS]) -> Queue {
    Queue {
        sender: words[0],
        receiver: words[1],
        count: words[2],
        places: std::array::from_fn(|place| Handle {
            base: words[FIRST + 3 * place],
            length: words[FIRST + 3 * place + 1],
            serial: words[FIRST + 3 * place + 2],
        }),
    }
}
