//! Images: a heap with its accounts as bytes that can be kept and read back.
//!
//! Form 2 carries every state and is what is written. Form 1 is that of earlier versions, with fewer
//! quotas and records, no permissions and plain heaps of the first edition alone; it is written for
//! boards that read nothing else. Both are read, by the number that they begin with.

use core::error::Error;
use core::fmt;

use crate::heap::Heap;
use crate::raw::{self, Words};
use crate::refusal::Refusal;

/// The length of the longest image, that of a heap of 32,768 bytes.
pub const IMAGE_MAX: usize = 37_888;

/// The length of the longest image of form 1.
pub const IMAGE_MAX_FORM_1: usize = 34_816;

/// The number of quotas that form 1 has.
pub const FORM_1_QUOTAS: usize = 8;

/// The number of hold records that form 1 has.
pub const FORM_1_HOLDS: usize = 128;

/// The length of the image of a heap of so many bytes; none where no heap can have that length.
///
/// ```
/// assert_eq!(lokhazim::image_length(64), Some(5_120));
/// assert_eq!(lokhazim::image_length(lokhazim::HEAP_MAX), Some(lokhazim::IMAGE_MAX));
/// assert_eq!(lokhazim::image_length(65), None);
/// ```
#[must_use]
pub fn image_length(heap_length: usize) -> Option<usize> {
    some_length(raw::image_length(heap_length))
}

/// The length of the image of form 1 of a heap of so many bytes; none where no heap can have that
/// length.
///
/// ```
/// use lokhazim::{image_length_form_1, HEAP_MAX, IMAGE_MAX_FORM_1};
///
/// assert_eq!(image_length_form_1(64), Some(1_536));
/// assert_eq!(image_length_form_1(HEAP_MAX), Some(IMAGE_MAX_FORM_1));
/// ```
#[must_use]
pub fn image_length_form_1(heap_length: usize) -> Option<usize> {
    some_length(raw::image_length_form_1(heap_length))
}

/// A length that is not 0.
fn some_length(length: usize) -> Option<usize> {
    (length != 0).then_some(length)
}

/// What an image says of itself before it is read.
#[derive(Clone, Copy, Debug, PartialEq, Eq, Hash)]
pub struct ImageFacts {
    /// The number of its form, 1 or 2.
    pub form: u32,
    /// The length of the heap that it holds, which is the length of the bytes to read it into.
    pub heap_length: usize,
}

/// Tells the form of an image and the length of the heap in it, where its frames and its shape are
/// right. Whether heap and accounts agree is told by reading it.
///
/// # Errors
///
/// [`ImageRefusal::ImageLength`], [`ImageRefusal::FrameWrong`], [`ImageRefusal::FormNumber`],
/// [`ImageRefusal::Contents`], checked in this order.
///
/// ```
/// use lokhazim::{examine_image, Heap, ImageRefusal, QUOTAS};
///
/// let mut memory = [0; 128];
/// let heap = Heap::open(&mut memory, [100; QUOTAS])?;
/// let mut image = [0; 5_120];
/// heap.save(&mut image)?;
/// assert_eq!(examine_image(&image)?.heap_length, 128);
/// assert_eq!(examine_image(&image)?.form, 2);
/// assert_eq!(examine_image(&image[..100]), Err(ImageRefusal::ImageLength));
/// # Ok::<(), Box<dyn std::error::Error>>(())
/// ```
pub fn examine_image(image: &[u8]) -> Result<ImageFacts, ImageRefusal> {
    let reply = raw::image_examine(image);
    verdict(reply.refusal).map(|()| ImageFacts {
        form: reply.form,
        heap_length: reply.heap_length,
    })
}

/// Why an image is not written, not read or not moved; then nothing is changed.
///
/// ```
/// use lokhazim::ImageRefusal;
///
/// assert_eq!(
///     ImageRefusal::Room.to_string(),
///     "refusal 25: the lent image is too short, or the lent heap has not the length of the image's; ask for the image's length, or examine the image"
/// );
/// ```
#[derive(Clone, Copy, Debug, PartialEq, Eq, Hash)]
#[non_exhaustive]
pub enum ImageRefusal {
    /// 1 or 2: the heap's length is not allowed, or its bytes and accounts don't agree.
    Call(Refusal),
    /// 21: the image's length is 0 or no multiple of 512.
    ImageLength,
    /// 22: a frame's check, number or count is wrong.
    FrameWrong,
    /// 23: another form of image, one that is not moved this way, or a mark that this form doesn't
    /// have, such as a kind or an edition above 1.
    FormNumber,
    /// 24: a heap length that is not allowed or needs another number of frames, a spare byte that is
    /// not zero, or permissions that don't exist.
    Contents,
    /// 25: the lent image is too short, or the lent heap has another length than the image's.
    Room,
    /// 26: the heap and the accounts in the image don't agree.
    Inconsistent,
    /// 27: the heaps of two images have different lengths.
    HeapLengths,
    /// 28: form 1 can't carry the accounts: one of the quotas behind the first [`FORM_1_QUOTAS`] has
    /// a grant, one of the records behind the first [`FORM_1_HOLDS`] is used, some quota is without a
    /// permission, or the heap has quarantine or is of the second edition.
    NotCarried,
    /// 29: two images are of different forms.
    FormsDiffer,
}

impl ImageRefusal {
    /// The refusal's number, the same as in C.
    ///
    /// ```
    /// use lokhazim::{ImageRefusal, Refusal};
    ///
    /// assert_eq!(ImageRefusal::FrameWrong.number(), 22);
    /// assert_eq!(ImageRefusal::Call(Refusal::Inconsistent).number(), 2);
    /// ```
    #[must_use]
    pub const fn number(self) -> u32 {
        match self {
            ImageRefusal::Call(refusal) => refusal.number(),
            ImageRefusal::ImageLength => 21,
            ImageRefusal::FrameWrong => 22,
            ImageRefusal::FormNumber => 23,
            ImageRefusal::Contents => 24,
            ImageRefusal::Room => 25,
            ImageRefusal::Inconsistent => 26,
            ImageRefusal::HeapLengths => 27,
            ImageRefusal::NotCarried => 28,
            ImageRefusal::FormsDiffer => 29,
        }
    }

    /// The refusal that has this number, if one has.
    ///
    /// ```
    /// use lokhazim::{ImageRefusal, Refusal};
    ///
    /// assert_eq!(ImageRefusal::from_number(26), Some(ImageRefusal::Inconsistent));
    /// assert_eq!(ImageRefusal::from_number(3), None);
    /// ```
    #[must_use]
    pub fn from_number(number: u32) -> Option<ImageRefusal> {
        let own = [
            ImageRefusal::Call(Refusal::HeapLength),
            ImageRefusal::Call(Refusal::Inconsistent),
            ImageRefusal::ImageLength,
            ImageRefusal::FrameWrong,
            ImageRefusal::FormNumber,
            ImageRefusal::Contents,
            ImageRefusal::Room,
            ImageRefusal::Inconsistent,
            ImageRefusal::HeapLengths,
            ImageRefusal::NotCarried,
            ImageRefusal::FormsDiffer,
        ];
        own.into_iter().find(|refusal| refusal.number() == number)
    }

    /// What is wrong, and what to do.
    const fn advice(self) -> &'static str {
        match self {
            ImageRefusal::Call(_) => "",
            ImageRefusal::ImageLength => "the image's length is 0 or no multiple of 512; hand over the whole image and nothing else",
            ImageRefusal::FrameWrong => "a frame's check, number or count is wrong; the image is damaged, cut short or longer than it was written",
            ImageRefusal::FormNumber => "this is no image of a form that this version reads, or not of the form that is moved this way",
            ImageRefusal::Contents => "the image states a heap length that it can't have, or has bytes where zeros belong; it was not written by this library",
            ImageRefusal::Room => "the lent image is too short, or the lent heap has not the length of the image's; ask for the image's length, or examine the image",
            ImageRefusal::HeapLengths => "the heaps of the two images have different lengths; only images of one length are compared",
            ImageRefusal::NotCarried => "form 1 has fewer quotas and records, all permissions, no quarantine and edition 1 alone; save form 2",
            ImageRefusal::FormsDiffer => "the two images are of different forms; move one to the form of the other to compare them",
            ImageRefusal::Inconsistent => "the heap and the accounts in the image don't agree; it was not written by this library",
        }
    }
}

impl fmt::Display for ImageRefusal {
    fn fmt(&self, f: &mut fmt::Formatter<'_>) -> fmt::Result {
        match self {
            ImageRefusal::Call(refusal) => refusal.fmt(f),
            own => write!(f, "refusal {}: {}", own.number(), own.advice()),
        }
    }
}

impl Error for ImageRefusal {}

/// The verdict that a reply's refusal number stands for.
///
/// # Panics
///
/// Where the number is one that the library is proved not to give: then another library has been
/// linked in its place.
pub(crate) fn verdict(number: u32) -> Result<(), ImageRefusal> {
    if number == 0 {
        return Ok(());
    }
    Err(ImageRefusal::from_number(number).unwrap_or_else(|| {
        panic!("refusal {number} is unknown; link the liblokhazim.a of this crate's version")
    }))
}

impl<'a> Heap<'a> {
    /// Writes an image of the heap and its accounts to the front of `image`; gives its length.
    /// Bytes behind it stay.
    ///
    /// # Errors
    ///
    /// [`ImageRefusal::Call`] of what [`check`](Heap::check) gives, then [`ImageRefusal::Room`] where
    /// `image` is shorter than [`image_length`] says; it is as it was.
    ///
    /// ```
    /// use lokhazim::{Heap, ImageRefusal, QuotaId, QUOTAS};
    ///
    /// let mut memory = [0; 128];
    /// let mut heap = Heap::open(&mut memory, [100; QUOTAS])?;
    /// let handle = heap.allocate(QuotaId::new(0), 10)?;
    /// let mut image = [0; lokhazim::IMAGE_MAX];
    /// let length = heap.save(&mut image)?;
    ///
    /// let mut elsewhere = [7; 128];
    /// let again = Heap::resume(&mut elsewhere, &image[..length])?;
    /// assert_eq!(again.accounts(), heap.accounts());
    /// assert_eq!(again.lend(handle)?, [0; 16]);
    /// assert_eq!(heap.save(&mut image[..length - 1]), Err(ImageRefusal::Room));
    /// # Ok::<(), Box<dyn std::error::Error>>(())
    /// ```
    pub fn save(&self, image: &mut [u8]) -> Result<usize, ImageRefusal> {
        let reply = raw::image_write(image, self.bytes, &self.words);
        verdict(reply.refusal).map(|()| reply.length)
    }

    /// Writes an image of form 1, for a board that reads nothing else; gives its length.
    ///
    /// # Errors
    ///
    /// [`ImageRefusal::Call`] of what [`check`](Heap::check) gives, then [`ImageRefusal::NotCarried`]
    /// where form 1 can't carry the accounts, then [`ImageRefusal::Room`] where `image` is shorter
    /// than [`image_length_form_1`] says; it is as it was.
    ///
    /// ```
    /// use lokhazim::{examine_image, grants, Heap, ImageRefusal, Permissions, QuotaId};
    ///
    /// let mut memory = [0; 128];
    /// let mut heap = Heap::open(&mut memory, grants([100, 1_000]))?;
    /// let mut image = [0; 1_536];
    /// heap.save_form_1(&mut image)?;
    /// assert_eq!(examine_image(&image)?.form, 1);
    ///
    /// heap.clear_permissions(QuotaId::new(1), Permissions::CLAIM)?;
    /// assert_eq!(heap.save_form_1(&mut image), Err(ImageRefusal::NotCarried));
    /// # Ok::<(), Box<dyn std::error::Error>>(())
    /// ```
    pub fn save_form_1(&self, image: &mut [u8]) -> Result<usize, ImageRefusal> {
        let reply = raw::image_write_form_1(image, self.bytes, &self.words);
        verdict(reply.refusal).map(|()| reply.length)
    }

    /// Resumes from an image, as a board that starts does; the bytes have the length of the image's
    /// heap. For a heap in use see [`restore`](Heap::restore).
    ///
    /// A board that was stopped goes on where it was: handles from before the image are good. Drop every
    /// handle that was given out after it: serials are given again, so such a handle may name an object
    /// that another part was given since, and no call can tell. The heap's kind and edition come from the
    /// image too. From form 1 every quota has all permissions, and the heap is plain and of the first
    /// edition.
    ///
    /// # Errors
    ///
    /// [`ImageRefusal::ImageLength`], [`ImageRefusal::FrameWrong`], [`ImageRefusal::FormNumber`],
    /// [`ImageRefusal::Contents`], [`ImageRefusal::Room`], [`ImageRefusal::Inconsistent`], checked in
    /// this order; the bytes are as they were.
    ///
    /// ```
    /// use lokhazim::{Heap, ImageRefusal};
    ///
    /// let mut memory = [7; 128];
    /// assert_eq!(Heap::resume(&mut memory, &[1; 1_536]).unwrap_err(), ImageRefusal::FrameWrong);
    /// assert_eq!(memory, [7; 128]);
    /// ```
    pub fn resume(bytes: &'a mut [u8], image: &[u8]) -> Result<Heap<'a>, ImageRefusal> {
        let mut words = Words::ZERO;
        verdict(raw::image_resume(image, bytes, &mut words))?;
        Ok(Heap { bytes, words })
    }

    /// Restores this heap, which is in use, from an image of a heap of the same length. What
    /// [`Heap::resume`] says of handles that were given out after the image holds here too.
    ///
    /// # Errors
    ///
    /// As of [`resume`](Heap::resume); heap and accounts are as they were, and calls go on with them.
    ///
    /// ```
    /// use lokhazim::{Heap, ImageRefusal, QuotaId, QUOTAS};
    ///
    /// let mut memory = [0; 128];
    /// let mut heap = Heap::open(&mut memory, [100; QUOTAS])?;
    /// let mut image = [0; 5_120];
    /// heap.save(&mut image)?;
    /// let handle = heap.allocate(QuotaId::new(0), 10)?;
    /// assert_eq!(heap.restore(&image[..512]), Err(ImageRefusal::FrameWrong));
    /// assert!(heap.lend(handle).is_ok());
    /// heap.restore(&image)?;
    /// assert!(heap.lend(handle).is_err());
    /// # Ok::<(), Box<dyn std::error::Error>>(())
    /// ```
    pub fn restore(&mut self, image: &[u8]) -> Result<(), ImageRefusal> {
        verdict(raw::image_restore(image, self.bytes, &mut self.words))
    }
}
