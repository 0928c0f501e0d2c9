//! The exported calls over the accounts where they lie, as words.

use super::{numbers, AmountReply, BlockReply, CGrants, CHandle, HandleReply, RangeReply};
use crate::run::words::WORDS;
use crate::state::{Answer, Call, Choice};

extern "C" {
    fn lokhazim_raw_open(
        heap: *mut u8,
        heap_length: usize,
        words: *mut u32,
        grants: CGrants,
        kind: u32,
        edition: u32,
    ) -> u32;
    fn lokhazim_raw_allocate(
        heap: *mut u8,
        heap_length: usize,
        words: *mut u32,
        quota: u32,
        length: u32,
    ) -> HandleReply;
    fn lokhazim_raw_allocate_array(
        heap: *mut u8,
        heap_length: usize,
        words: *mut u32,
        quota: u32,
        count: u32,
        size: u32,
    ) -> HandleReply;
    fn lokhazim_raw_claim(
        heap: *const u8,
        heap_length: usize,
        words: *mut u32,
        quota: u32,
        handle: CHandle,
    ) -> AmountReply;
    fn lokhazim_raw_release(
        heap: *mut u8,
        heap_length: usize,
        words: *mut u32,
        quota: u32,
        handle: CHandle,
    ) -> AmountReply;
    fn lokhazim_raw_free_all(
        heap: *mut u8,
        heap_length: usize,
        words: *mut u32,
        quota: u32,
    ) -> AmountReply;
    fn lokhazim_raw_clear_permissions(
        heap: *const u8,
        heap_length: usize,
        words: *mut u32,
        quota: u32,
        bits: u32,
    ) -> AmountReply;
    fn lokhazim_raw_reallocate(
        heap: *mut u8,
        heap_length: usize,
        words: *mut u32,
        quota: u32,
        handle: CHandle,
        length: u32,
    ) -> HandleReply;
    fn lokhazim_raw_sweep(heap: *mut u8, heap_length: usize, words: *const u32) -> AmountReply;
    fn lokhazim_raw_lend(
        heap: *const u8,
        heap_length: usize,
        words: *const u32,
        handle: CHandle,
    ) -> RangeReply;
    fn lokhazim_raw_write(
        heap: *mut u8,
        heap_length: usize,
        words: *const u32,
        handle: CHandle,
        at: u32,
        byte: u8,
    ) -> u32;
    fn lokhazim_raw_remaining(
        heap: *const u8,
        heap_length: usize,
        words: *const u32,
        quota: u32,
    ) -> AmountReply;
    fn lokhazim_raw_can_release(
        heap: *const u8,
        heap_length: usize,
        words: *const u32,
        quota: u32,
        handle: CHandle,
    ) -> u32;
    fn lokhazim_raw_list_block(
        heap: *const u8,
        heap_length: usize,
        words: *const u32,
        at: usize,
    ) -> BlockReply;
    fn lokhazim_raw_check(heap: *const u8, heap_length: usize, words: *const u32) -> u32;
}

/// Makes a call by the proved code on heap and words, and gives the answer.
pub fn perform(heap: &mut [u8], words: &mut [u32; WORDS], call: Call) -> Answer {
    let (p, len, w) = (heap.as_mut_ptr(), heap.len(), words.as_mut_ptr());
    // Safety: the pointers and the length are those of a slice and an array that are borrowed, the
    // structs have the layout of the boundary, and the functions accept any bytes, words and numbers.
    unsafe {
        match call {
            Call::Open(values, Choice { kind, edition }) => {
                let grants = CGrants { values };
                numbers(lokhazim_raw_open(p, len, w, grants, kind, edition), &[])
            }
            Call::Allocate(q, n) => lokhazim_raw_allocate(p, len, w, q, n).answer(),
            Call::Array(q, n, s) => lokhazim_raw_allocate_array(p, len, w, q, n, s).answer(),
            Call::Claim(q, h) => lokhazim_raw_claim(p, len, w, q, h.into()).answer(),
            Call::Release(q, h) => lokhazim_raw_release(p, len, w, q, h.into()).answer(),
            Call::FreeAll(q) => lokhazim_raw_free_all(p, len, w, q).answer(),
            Call::Reallocate(q, h, n) => {
                lokhazim_raw_reallocate(p, len, w, q, h.into(), n).answer()
            }
            Call::ClearPermissions(q, n) => {
                lokhazim_raw_clear_permissions(p, len, w, q, n).answer()
            }
            Call::Sweep => lokhazim_raw_sweep(p, len, w).answer(),
            Call::Lend(h) => lokhazim_raw_lend(p, len, w, h.into()).answer(),
            Call::Write(h, at, byte) => {
                numbers(lokhazim_raw_write(p, len, w, h.into(), at, byte), &[])
            }
            Call::Remaining(q) => lokhazim_raw_remaining(p, len, w, q).answer(),
            Call::CanRelease(q, h) => {
                numbers(lokhazim_raw_can_release(p, len, w, q, h.into()), &[])
            }
            Call::List(at) => lokhazim_raw_list_block(p, len, w, at).answer(),
            Call::Check => numbers(lokhazim_raw_check(p, len, w), &[]),
        }
    }
}
