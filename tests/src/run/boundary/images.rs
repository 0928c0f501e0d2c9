//! The exported functions of images, with the layout of the crate `exports`.

use lokhazim_reference::Difference;

use crate::judge::forms::Form;
use crate::run::words::WORDS;

/// What writing an image gives back.
#[repr(C)]
struct ImageReply {
    refusal: u32,
    length: usize,
}

/// What comparing two images gives back.
#[repr(C)]
struct CompareReply {
    refusal: u32,
    which: u32,
    kind: u32,
    place: usize,
    length: usize,
}

/// What asking for the next difference gives back: the difference, and the position behind it.
#[repr(C)]
struct NextReply {
    refusal: u32,
    which: u32,
    kind: u32,
    place: usize,
    length: usize,
    part: u32,
    at: usize,
}

extern "C" {
    fn lokhazim_image_compare(
        first: *const u8,
        first_length: usize,
        second: *const u8,
        second_length: usize,
        n: usize,
    ) -> CompareReply;
    fn lokhazim_image_compare_next(
        first: *const u8,
        first_length: usize,
        second: *const u8,
        second_length: usize,
        part: u32,
        at: usize,
    ) -> NextReply;
    fn lokhazim_image_length(heap_length: usize) -> usize;
    fn lokhazim_image_length_form_1(heap_length: usize) -> usize;
    fn lokhazim_image_move_up(
        image: *const u8,
        image_length: usize,
        out: *mut u8,
        out_length: usize,
    ) -> ImageReply;
    fn lokhazim_image_move_down(
        image: *const u8,
        image_length: usize,
        out: *mut u8,
        out_length: usize,
    ) -> ImageReply;
    fn lokhazim_raw_image_write(
        image: *mut u8,
        image_length: usize,
        heap: *const u8,
        heap_length: usize,
        words: *const u32,
    ) -> ImageReply;
    fn lokhazim_raw_image_write_form_1(
        image: *mut u8,
        image_length: usize,
        heap: *const u8,
        heap_length: usize,
        words: *const u32,
    ) -> ImageReply;
    fn lokhazim_raw_image_resume(
        image: *const u8,
        image_length: usize,
        heap: *mut u8,
        heap_length: usize,
        words: *mut u32,
    ) -> u32;
    fn lokhazim_raw_image_restore(
        image: *const u8,
        image_length: usize,
        heap: *mut u8,
        heap_length: usize,
        words: *mut u32,
    ) -> u32;
}

/// Gives the length of the image of a heap of this length, 0 for a length that is not allowed.
pub fn image_length(form: Form, heap_length: usize) -> usize {
    // Safety: the functions take and give a number.
    unsafe {
        match form.number {
            1 => lokhazim_image_length_form_1(heap_length),
            _ => lokhazim_image_length(heap_length),
        }
    }
}

/// Writes an image by the proved code and gives the refusal and the length.
///
/// What is lent for reading gets a pointer made from a mutable borrow too, so that comparing the
/// bytes afterwards would see a write.
pub fn write(
    form: Form,
    image: &mut [u8],
    heap: &mut [u8],
    words: &mut [u32; WORDS],
) -> (u32, usize) {
    let write = match form.number {
        1 => lokhazim_raw_image_write_form_1,
        _ => lokhazim_raw_image_write,
    };
    let (to, room) = (image.as_mut_ptr(), image.len());
    let (from, length) = (heap.as_mut_ptr(), heap.len());
    // Safety: each pointer and length are those of one borrowed slice, words are as many as the accounts
    // have, and the function accepts any bytes and numbers.
    let reply = unsafe { write(to, room, from, length, words.as_mut_ptr()) };
    (reply.refusal, reply.length)
}

/// A function that reads an image into words.
type Read = unsafe extern "C" fn(*const u8, usize, *mut u8, usize, *mut u32) -> u32;

/// Reads an image by a function of the proved code and gives the refusal.
fn taken(read: Read, image: &mut [u8], heap: &mut [u8], words: &mut [u32; WORDS]) -> u32 {
    let (from, count, to, length) = (
        image.as_mut_ptr(),
        image.len(),
        heap.as_mut_ptr(),
        heap.len(),
    );
    // Safety: as above.
    unsafe { read(from, count, to, length, words.as_mut_ptr()) }
}

/// Resumes from an image, and gives the refusal.
pub fn resume(image: &mut [u8], heap: &mut [u8], words: &mut [u32; WORDS]) -> u32 {
    taken(lokhazim_raw_image_resume, image, heap, words)
}

/// Restores an image where heap and accounts are in use, and gives the refusal.
pub fn restore(image: &mut [u8], heap: &mut [u8], words: &mut [u32; WORDS]) -> u32 {
    taken(lokhazim_raw_image_restore, image, heap, words)
}

/// Moves an image that is to be of a form to the other one by the proved code, and gives the refusal
/// and the length.
pub fn move_from(form: Form, image: &mut [u8], out: &mut [u8]) -> (u32, usize) {
    let move_image = match form.number {
        1 => lokhazim_image_move_up,
        _ => lokhazim_image_move_down,
    };
    // Safety: as above.
    let reply = unsafe { move_image(image.as_mut_ptr(), image.len(), out.as_mut_ptr(), out.len()) };
    (reply.refusal, reply.length)
}

/// A difference by its kind's number; none for 0.
fn difference(kind: u32, at: usize, length: usize) -> Option<Difference> {
    match (kind, at, length) {
        (0, 0, 0) => None,
        (1, 0, 0) => Some(Difference::LastSerial),
        (2, number, 0) => Some(Difference::Quota(number)),
        (3, place, 0) => Some(Difference::Record(place)),
        (4, offset, length) => Some(Difference::Bytes(offset, length)),
        (5, 0, 0) => Some(Difference::Kind),
        (6, 0, 0) => Some(Difference::Edition),
        other => panic!("the numbers {other:?} name no difference"),
    }
}

/// Asks the proved code for the n-th difference of two images, by refusal and the image it is about.
pub fn compare(first: &[u8], second: &[u8], n: usize) -> Result<Option<Difference>, (u32, u32)> {
    // Safety: each pointer and length are those of one borrowed slice, which is only read.
    let reply = unsafe {
        lokhazim_image_compare(
            first.as_ptr(),
            first.len(),
            second.as_ptr(),
            second.len(),
            n,
        )
    };
    if reply.refusal != 0 {
        assert_eq!((reply.kind, reply.place, reply.length), (0, 0, 0));
        return Err((reply.refusal, reply.which));
    }
    assert_eq!(reply.which, 0);
    Ok(difference(reply.kind, reply.place, reply.length))
}

/// A position by its numbers: the part and the place in it.
pub type Position = (u32, usize);

/// Asks the proved code for the first difference of two images from a position on, and the position
/// behind it, by refusal and the image it is about.
pub fn next_difference(
    first: &[u8],
    second: &[u8],
    (part, at): Position,
) -> Result<Option<(Difference, Position)>, (u32, u32)> {
    let (a, b) = (first.as_ptr(), second.as_ptr());
    // Safety: as above.
    let reply = unsafe { lokhazim_image_compare_next(a, first.len(), b, second.len(), part, at) };
    let behind = (reply.part, reply.at);
    let found = difference(reply.kind, reply.place, reply.length);
    if reply.refusal != 0 {
        assert_eq!((found, behind), (None, (0, 0)));
        return Err((reply.refusal, reply.which));
    }
    assert_eq!(reply.which, 0);
    Ok(found.map(|found| (found, behind)))
}

/// Asks the proved code for all differences of two images, each from where the last one was found.
pub fn all_differences(first: &[u8], second: &[u8]) -> Result<Vec<Difference>, (u32, u32)> {
    let mut from = (0, 0);
    let mut all = Vec::new();
    while let Some((found, behind)) = next_difference(first, second, from)? {
        all.push(found);
        from = behind;
    }
    Ok(all)
}
