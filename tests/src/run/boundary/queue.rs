//! The exported functions of packet queues, with the layout of the crate `exports`.

use lokhazim_reference::{Handle, Queue, QUEUE_PLACES};

use super::{CHandle, HandleReply};
use crate::run::queue_words::QUEUE_WORDS;
use crate::run::words::WORDS;

/// A queue as it crosses the boundary.
#[repr(C)]
#[derive(Clone, Copy)]
struct CQueue {
    sender: u32,
    receiver: u32,
    count: u32,
    handles: [CHandle; QUEUE_PLACES],
}

extern "C" {
    fn lokhazim_queue_new(sender: u32, receiver: u32) -> CQueue;
    fn lokhazim_raw_queue_send(
        heap: *mut u8,
        heap_length: usize,
        words: *mut u32,
        queue: *mut u32,
        handle: CHandle,
    ) -> u32;
    fn lokhazim_raw_queue_receive(queue: *mut u32) -> HandleReply;
}

impl From<CHandle> for Handle {
    fn from(handle: CHandle) -> Handle {
        Handle {
            base: handle.base,
            length: handle.length,
            serial: handle.serial,
        }
    }
}

impl From<CQueue> for Queue {
    fn from(queue: CQueue) -> Queue {
        Queue {
            sender: queue.sender,
            receiver: queue.receiver,
            count: queue.count,
            places: queue.handles.map(Handle::from),
        }
    }
}

/// Makes a queue by the proved code.
pub fn new(sender: u32, receiver: u32) -> Queue {
    // Safety: the function accepts any numbers.
    unsafe { lokhazim_queue_new(sender, receiver) }.into()
}

/// Sends a handle by the proved code and gives the refusal.
pub fn send(
    heap: &mut [u8],
    words: &mut [u32; WORDS],
    queue: &mut [u32; QUEUE_WORDS],
    handle: Handle,
) -> u32 {
    let (p, len) = (heap.as_mut_ptr(), heap.len());
    let (w, q) = (words.as_mut_ptr(), queue.as_mut_ptr());
    // Safety: the pointers and the length are those of a slice and two arrays that are borrowed, the
    // handle has the layout of the boundary, and the function accepts any bytes, words and numbers.
    unsafe { lokhazim_raw_queue_send(p, len, w, q, handle.into()) }
}

/// Receives by the proved code and gives the refusal and the handle.
pub fn receive(queue: &mut [u32; QUEUE_WORDS]) -> (u32, Handle) {
    // Safety: the pointer is that of an array that is borrowed, and the function accepts any words.
    let r = unsafe { lokhazim_raw_queue_receive(queue.as_mut_ptr()) };
    (r.refusal, r.handle.into())
}
