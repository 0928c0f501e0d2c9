//! An image of a heap with its accounts: written into a lent buffer and read back.
//!
//! Streams are made and read in `forms`, blocks are cut and joined in `frames`.

use crate::accounts::Accounts;
use crate::forms::{Fields, Form, FORM_1, FORM_2, FORM_BYTES};
use crate::frames::{blocks_for, cut, join, BLOCK_BYTES};
use crate::options::Options;
use crate::refusal::Refusal;
use crate::sound::{check, length_is_allowed};

/// Why an image was not written or not read.
#[derive(Clone, Copy, Debug, PartialEq, Eq, Hash)]
pub enum ImageRefusal {
    /// 1 or 2, as a call gives them.
    Call(Refusal),
    /// 21: the image's length is zero or no multiple of 512.
    ImageLength,
    /// 22: a block's check, number or number of blocks is wrong.
    BlockWrong,
    /// 23: another form, or a byte behind its number that the form rules out.
    Form,
    /// 24: a heap length that is not allowed, another number of blocks than it
    /// asks for, a spare byte that is not zero, or a permission that there is not.
    Contents,
    /// 28: the form has no room for a part of the accounts.
    FormTooSmall,
    /// 25: the lent image is too short, or the lent heap has another length.
    Room,
    /// 26: the heap and the accounts in the image are not consistent.
    NotSound,
    /// 29: two images have different forms.
    TwoForms,
    /// 27: the heaps of two images have different lengths.
    HeapLengths,
}

impl ImageRefusal {
    /// Gives the number of the refusal.
    pub const fn number(self) -> u8 {
        match self {
            ImageRefusal::Call(refusal) => refusal.number(),
            ImageRefusal::ImageLength => 21,
            ImageRefusal::BlockWrong => 22,
            ImageRefusal::Form => 23,
            ImageRefusal::Contents => 24,
            ImageRefusal::FormTooSmall => 28,
            ImageRefusal::Room => 25,
            ImageRefusal::NotSound => 26,
            ImageRefusal::TwoForms => 29,
            ImageRefusal::HeapLengths => 27,
        }
    }
}

/// Gives the length of the image, in form 2, of a heap of so many bytes.
pub fn image_length(heap_bytes: usize) -> usize {
    length_in(FORM_2, heap_bytes)
}

/// Gives the length of the image, in form 1, of a heap of so many bytes.
pub fn image_length_form_1(heap_bytes: usize) -> usize {
    length_in(FORM_1, heap_bytes)
}

/// Gives the length of an image in a form.
fn length_in(form: Form, heap_bytes: usize) -> usize {
    BLOCK_BYTES * blocks_for(form.stream_bytes(heap_bytes))
}

/// Writes the image, in form 2, of a consistent state to the front of the lent bytes and gives its
/// length; bytes behind it stay.
pub fn write_image(
    image: &mut [u8],
    heap: &[u8],
    accounts: &Accounts,
) -> Result<usize, ImageRefusal> {
    write_in(FORM_2, image, heap, accounts)
}

/// Writes the image in form 1, if that form has room for the accounts.
pub fn write_form_1(
    image: &mut [u8],
    heap: &[u8],
    accounts: &Accounts,
) -> Result<usize, ImageRefusal> {
    write_in(FORM_1, image, heap, accounts)
}

/// Writes the image in a form.
///
/// Form 2 has room for all consistent accounts, so 28 arises in form 1 alone.
fn write_in(
    form: Form,
    image: &mut [u8],
    heap: &[u8],
    accounts: &Accounts,
) -> Result<usize, ImageRefusal> {
    check(heap, accounts).map_err(ImageRefusal::Call)?;
    if !form.has_room_for(accounts) {
        return Err(ImageRefusal::FormTooSmall);
    }
    let written = cut(&form.stream_of(heap, accounts));
    let room = image.get_mut(..written.len()).ok_or(ImageRefusal::Room)?;
    room.copy_from_slice(&written);
    Ok(written.len())
}

/// Reads an image of either form into the lent heap and gives its accounts; a refusal leaves
/// the heap alone.
pub fn read_image(image: &[u8], heap: &mut [u8]) -> Result<Accounts, ImageRefusal> {
    let stored = decode(image, &[FORM_1, FORM_2])?;
    if heap.len() != stored.heap.len() {
        return Err(ImageRefusal::Room);
    }
    let stored = stored.sound()?;
    heap.copy_from_slice(&stored.heap);
    Ok(stored.accounts)
}

/// What an image holds.
pub(crate) struct Stored {
    pub(crate) form: Form,
    pub(crate) heap: Vec<u8>,
    pub(crate) accounts: Accounts,
}

impl Stored {
    /// Gives the same if heap and accounts are consistent, else refusal 26.
    fn sound(self) -> Result<Stored, ImageRefusal> {
        check(&self.heap, &self.accounts).map_err(|_| ImageRefusal::NotSound)?;
        Ok(self)
    }
}

/// Gives what is in an image of one of these forms that a reader accepts into a heap of its
/// length.
pub(crate) fn decode_sound(image: &[u8], forms: &[Form]) -> Result<Stored, ImageRefusal> {
    decode(image, forms)?.sound()
}

/// Gives what is in an image of one of these forms whose shape is right, by refusals 21 to 24.
fn decode(image: &[u8], forms: &[Form]) -> Result<Stored, ImageRefusal> {
    if image.is_empty() || !image.len().is_multiple_of(BLOCK_BYTES) {
        return Err(ImageRefusal::ImageLength);
    }
    let stream = join(image).ok_or(ImageRefusal::BlockWrong)?;
    let (front, behind) = stream.split_at(FORM_BYTES);
    let (form, options) = Form::named_by(front, forms).ok_or(ImageRefusal::Form)?;
    decode_contents(form, options, behind, image.len()).ok_or(ImageRefusal::Contents)
}

/// Gives what is in the stream behind the form; none where refusal 24 is due.
fn decode_contents(
    form: Form,
    options: Options,
    behind_form: &[u8],
    image_bytes: usize,
) -> Option<Stored> {
    let mut fields = Fields(behind_form);
    let heap_bytes = usize::try_from(fields.word()?).ok()?;
    if !length_is_allowed(heap_bytes) || image_bytes != length_in(form, heap_bytes) {
        return None;
    }
    let accounts = fields.accounts(form, options)?;
    let heap = fields.take(heap_bytes)?.to_vec();
    let padding_is_zero = fields.0.iter().all(|byte| *byte == 0);
    padding_is_zero.then_some(Stored {
        form,
        heap,
        accounts,
    })
}
