//! The library's functions, each behind a safe one. All `unsafe` code of the crate is here.
//!
//! The library keeps no pointer and has no memory of its own. It reads and writes only the bytes
//! and the words that it is lent, is proved to do so inside their length, and takes any bytes,
//! words and numbers. So a call is safe exactly if pointers and lengths are those of memory that is
//! borrowed for the call, which slices, [`Words`] and a [`Queue`] are. What is borrowed by `&` is
//! not written.

use crate::layout::{
    AddReply, AmountReply, BlockReply, CompareReply, EntryReply, ExamineReply, ExportReply,
    FindReply, Grants, Handle, HandleReply, ImageReply, ImportReply, NextReply, Queue, RangeReply,
};

pub mod statistics;
mod words;

pub use words::Words;

extern "C" {
    fn lokhazim_raw_open(
        heap: *mut u8,
        length: usize,
        words: *mut Words,
        grants: Grants,
        kind: u32,
        edition: u32,
    ) -> u32;
    fn lokhazim_raw_allocate(
        heap: *mut u8,
        length: usize,
        words: *mut Words,
        quota: u32,
        bytes: u32,
    ) -> HandleReply;
    fn lokhazim_raw_allocate_array(
        heap: *mut u8,
        length: usize,
        words: *mut Words,
        quota: u32,
        count: u32,
        size: u32,
    ) -> HandleReply;
    fn lokhazim_raw_claim(
        heap: *const u8,
        length: usize,
        words: *mut Words,
        quota: u32,
        handle: Handle,
    ) -> AmountReply;
    fn lokhazim_raw_release(
        heap: *mut u8,
        length: usize,
        words: *mut Words,
        quota: u32,
        handle: Handle,
    ) -> AmountReply;
    fn lokhazim_raw_free_all(
        heap: *mut u8,
        length: usize,
        words: *mut Words,
        quota: u32,
    ) -> AmountReply;
    fn lokhazim_raw_clear_permissions(
        heap: *const u8,
        length: usize,
        words: *mut Words,
        quota: u32,
        bits: u32,
    ) -> AmountReply;
    fn lokhazim_raw_reallocate(
        heap: *mut u8,
        length: usize,
        words: *mut Words,
        quota: u32,
        handle: Handle,
        bytes: u32,
    ) -> HandleReply;
    fn lokhazim_raw_sweep(heap: *mut u8, length: usize, words: *const Words) -> AmountReply;
    fn lokhazim_raw_lend(
        heap: *const u8,
        length: usize,
        words: *const Words,
        handle: Handle,
    ) -> RangeReply;
    fn lokhazim_raw_write(
        heap: *mut u8,
        length: usize,
        words: *const Words,
        handle: Handle,
        at: u32,
        byte: u8,
    ) -> u32;
    fn lokhazim_raw_remaining(
        heap: *const u8,
        length: usize,
        words: *const Words,
        quota: u32,
    ) -> AmountReply;
    fn lokhazim_raw_can_release(
        heap: *const u8,
        length: usize,
        words: *const Words,
        quota: u32,
        handle: Handle,
    ) -> u32;
    fn lokhazim_raw_list_block(
        heap: *const u8,
        length: usize,
        words: *const Words,
        at: usize,
    ) -> BlockReply;
    fn lokhazim_raw_check(heap: *const u8, length: usize, words: *const Words) -> u32;
    fn lokhazim_image_length(heap_length: usize) -> usize;
    fn lokhazim_image_length_form_1(heap_length: usize) -> usize;
    fn lokhazim_raw_image_write(
        image: *mut u8,
        image_length: usize,
        heap: *const u8,
        length: usize,
        words: *const Words,
    ) -> ImageReply;
    fn lokhazim_raw_image_write_form_1(
        image: *mut u8,
        image_length: usize,
        heap: *const u8,
        length: usize,
        words: *const Words,
    ) -> ImageReply;
    fn lokhazim_image_move_up(
        image: *const u8,
        image_length: usize,
        out: *mut u8,
        out_length: usize,
    ) -> ImageReply;
    fn lokhazim_image_move_down(
        image: *const u8,
        image_length: usize,
        out: *mut u8,
        out_length: usize,
    ) -> ImageReply;
    fn lokhazim_image_compare(
        first: *const u8,
        first_length: usize,
        second: *const u8,
        second_length: usize,
        n: usize,
    ) -> CompareReply;
    fn lokhazim_image_compare_next(
        first: *const u8,
        first_length: usize,
        second: *const u8,
        second_length: usize,
        part: u32,
        at: usize,
    ) -> NextReply;
    fn lokhazim_image_examine(image: *const u8, image_length: usize) -> ExamineReply;
    fn lokhazim_raw_image_resume(
        image: *const u8,
        image_length: usize,
        heap: *mut u8,
        length: usize,
        words: *mut Words,
    ) -> u32;
    fn lokhazim_raw_image_restore(
        image: *const u8,
        image_length: usize,
        heap: *mut u8,
        length: usize,
        words: *mut Words,
    ) -> u32;
    fn lokhazim_raw_report_import(text: *const u8, length: usize) -> ImportReply;
    fn lokhazim_raw_report_export(text: *mut u8, length: usize, grants: Grants) -> ExportReply;
    fn lokhazim_raw_settings_find(
        board: *const u8,
        board_length: usize,
        board_used: usize,
        defaults: *const u8,
        defaults_length: usize,
        defaults_used: usize,
        name: u8,
        version: u16,
    ) -> FindReply;
    fn lokhazim_raw_settings_add(
        store: *mut u8,
        length: usize,
        used: usize,
        name: u8,
        version: u16,
        value: *const u8,
        value_length: usize,
    ) -> AddReply;
    fn lokhazim_raw_settings_entry(
        store: *const u8,
        length: usize,
        used: usize,
        n: usize,
    ) -> EntryReply;
    fn lokhazim_queue_new(sender: u32, receiver: u32) -> Queue;
    fn lokhazim_raw_queue_send(
        heap: *mut u8,
        length: usize,
        words: *mut Words,
        queue: *mut Queue,
        handle: Handle,
    ) -> u32;
    fn lokhazim_raw_queue_receive(queue: *mut Queue) -> HandleReply;
}

/// Makes a safe function of a call: the slice becomes its pointer and its length, and the
/// borrowed words their pointer.
macro_rules! safe {
    (mut, $words:ty: $name:ident = $raw:ident($($arg:ident: $type:ty),*) -> $reply:ty) => {
        pub fn $name(heap: &mut [u8], words: $words $(, $arg: $type)*) -> $reply {
            // SAFETY: pointers and length are those of a slice and words that are borrowed for the call.
            unsafe { $raw(heap.as_mut_ptr(), heap.len(), words $(, $arg)*) }
        }
    };
    (ref, $words:ty: $name:ident = $raw:ident($($arg:ident: $type:ty),*) -> $reply:ty) => {
        pub fn $name(heap: &[u8], words: $words $(, $arg: $type)*) -> $reply {
            // SAFETY: pointers and length are those of a slice and words that are borrowed for the call.
            unsafe { $raw(heap.as_ptr(), heap.len(), words $(, $arg)*) }
        }
    };
}

safe!(mut, &mut Words: open = lokhazim_raw_open(grants: Grants, kind: u32, edition: u32) -> u32);
safe!(mut, &mut Words: allocate = lokhazim_raw_allocate(quota: u32, bytes: u32) -> HandleReply);
safe!(mut, &mut Words: allocate_array = lokhazim_raw_allocate_array(quota: u32, count: u32, size: u32) -> HandleReply);
safe!(ref, &mut Words: claim = lokhazim_raw_claim(quota: u32, handle: Handle) -> AmountReply);
safe!(mut, &mut Words: release = lokhazim_raw_release(quota: u32, handle: Handle) -> AmountReply);
safe!(mut, &mut Words: free_all = lokhazim_raw_free_all(quota: u32) -> AmountReply);
safe!(ref, &mut Words: clear_permissions = lokhazim_raw_clear_permissions(quota: u32, bits: u32) -> AmountReply);
safe!(mut, &mut Words: reallocate = lokhazim_raw_reallocate(quota: u32, handle: Handle, bytes: u32) -> HandleReply);
safe!(mut, &Words: sweep = lokhazim_raw_sweep() -> AmountReply);
safe!(ref, &Words: lend = lokhazim_raw_lend(handle: Handle) -> RangeReply);
safe!(mut, &Words: write = lokhazim_raw_write(handle: Handle, at: u32, byte: u8) -> u32);
safe!(ref, &Words: remaining = lokhazim_raw_remaining(quota: u32) -> AmountReply);
safe!(ref, &Words: can_release = lokhazim_raw_can_release(quota: u32, handle: Handle) -> u32);
safe!(ref, &Words: list_block = lokhazim_raw_list_block(at: usize) -> BlockReply);
safe!(ref, &Words: check = lokhazim_raw_check() -> u32);
safe!(mut, &mut Words: queue_send = lokhazim_raw_queue_send(queue: &mut Queue, handle: Handle) -> u32);

pub fn image_length(heap_length: usize) -> usize {
    // SAFETY: the function takes and gives a number.
    unsafe { lokhazim_image_length(heap_length) }
}

pub fn image_length_form_1(heap_length: usize) -> usize {
    // SAFETY: the function takes and gives a number.
    unsafe { lokhazim_image_length_form_1(heap_length) }
}

pub fn image_write(image: &mut [u8], heap: &[u8], words: &Words) -> ImageReply {
    let (at, room) = (image.as_mut_ptr(), image.len());
    // SAFETY: pointers and lengths are those of two slices and words that are borrowed for the call.
    unsafe { lokhazim_raw_image_write(at, room, heap.as_ptr(), heap.len(), words) }
}

pub fn image_write_form_1(image: &mut [u8], heap: &[u8], words: &Words) -> ImageReply {
    let (at, room) = (image.as_mut_ptr(), image.len());
    // SAFETY: pointers and lengths are those of two slices and words that are borrowed for the call.
    unsafe { lokhazim_raw_image_write_form_1(at, room, heap.as_ptr(), heap.len(), words) }
}

pub fn image_move_up(image: &[u8], out: &mut [u8]) -> ImageReply {
    let (at, room) = (out.as_mut_ptr(), out.len());
    // SAFETY: pointers and lengths are those of two slices that are borrowed for the call.
    unsafe { lokhazim_image_move_up(image.as_ptr(), image.len(), at, room) }
}

pub fn image_move_down(image: &[u8], out: &mut [u8]) -> ImageReply {
    let (at, room) = (out.as_mut_ptr(), out.len());
    // SAFETY: pointers and lengths are those of two slices that are borrowed for the call.
    unsafe { lokhazim_image_move_down(image.as_ptr(), image.len(), at, room) }
}

pub fn image_examine(image: &[u8]) -> ExamineReply {
    // SAFETY: pointer and length are those of a slice that is borrowed for the call.
    unsafe { lokhazim_image_examine(image.as_ptr(), image.len()) }
}

pub fn image_compare(first: &[u8], second: &[u8], n: usize) -> CompareReply {
    let (a, b) = (first.as_ptr(), second.as_ptr());
    // SAFETY: pointers and lengths are those of two slices that are borrowed for the call.
    unsafe { lokhazim_image_compare(a, first.len(), b, second.len(), n) }
}

pub fn image_next(first: &[u8], second: &[u8], part: u32, at: usize) -> NextReply {
    let (a, b) = (first.as_ptr(), second.as_ptr());
    // SAFETY: pointers and lengths are those of two slices that are borrowed for the call.
    unsafe { lokhazim_image_compare_next(a, first.len(), b, second.len(), part, at) }
}

pub fn image_resume(image: &[u8], heap: &mut [u8], words: &mut Words) -> u32 {
    let (at, length) = (image.as_ptr(), image.len());
    // SAFETY: pointers and lengths are those of two slices and words that are borrowed for the call.
    unsafe { lokhazim_raw_image_resume(at, length, heap.as_mut_ptr(), heap.len(), words) }
}

pub fn image_restore(image: &[u8], heap: &mut [u8], words: &mut Words) -> u32 {
    let (at, length) = (image.as_ptr(), image.len());
    // SAFETY: as above.
    unsafe { lokhazim_raw_image_restore(at, length, heap.as_mut_ptr(), heap.len(), words) }
}

pub fn report_import(text: &[u8]) -> ImportReply {
    // SAFETY: pointer and length are those of a slice that is borrowed for the call.
    unsafe { lokhazim_raw_report_import(text.as_ptr(), text.len()) }
}

pub fn report_export(text: &mut [u8], grants: Grants) -> ExportReply {
    // SAFETY: pointer and length are those of a slice that is borrowed for the call.
    unsafe { lokhazim_raw_report_export(text.as_mut_ptr(), text.len(), grants) }
}

/// Each store is its bytes and how many of them are used.
pub fn settings_find(
    (board, board_used): (&[u8], usize),
    (defaults, defaults_used): (&[u8], usize),
    name: u8,
    version: u16,
) -> FindReply {
    let (a, b) = (board.as_ptr(), defaults.as_ptr());
    let (m, n) = (board.len(), defaults.len());
    // SAFETY: pointers and lengths are those of two slices that are borrowed for the call.
    unsafe { lokhazim_raw_settings_find(a, m, board_used, b, n, defaults_used, name, version) }
}

pub fn settings_add(
    store: &mut [u8],
    used: usize,
    name: u8,
    version: u16,
    value: &[u8],
) -> AddReply {
    let (at, length) = (store.as_mut_ptr(), store.len());
    let (from, count) = (value.as_ptr(), value.len());
    // SAFETY: pointers and lengths are those of two slices that are borrowed for the call.
    unsafe { lokhazim_raw_settings_add(at, length, used, name, version, from, count) }
}

pub fn settings_entry(store: &[u8], used: usize, n: usize) -> EntryReply {
    // SAFETY: pointer and length are those of a slice that is borrowed for the call.
    unsafe { lokhazim_raw_settings_entry(store.as_ptr(), store.len(), used, n) }
}

pub fn queue_new(sender: u32, receiver: u32) -> Queue {
    // SAFETY: the function takes and gives numbers.
    unsafe { lokhazim_queue_new(sender, receiver) }
}

pub fn queue_receive(queue: &mut Queue) -> HandleReply {
    // SAFETY: the pointer is that of a queue that is borrowed for the call.
    unsafe { lokhazim_raw_queue_receive(queue) }
}

#[cfg(test)]
mod tests;
