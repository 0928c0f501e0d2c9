//! Images moved to the other form.

use crate::image::{verdict, ImageRefusal};
use crate::layout::ImageReply;
use crate::raw;

/// Writes the image in form 2 of the state in an image of form 1 to the front of `out`; gives its
/// length. Bytes behind it stay. Hold records keep their places.
///
/// # Errors
///
/// [`ImageRefusal::ImageLength`], [`ImageRefusal::FrameWrong`], [`ImageRefusal::FormNumber`], which
/// an image of form 2 gives too, [`ImageRefusal::Contents`], [`ImageRefusal::Inconsistent`]; then
/// [`ImageRefusal::Room`] where `out` is shorter than [`image_length`](crate::image_length) says. `out` is as it was.
///
/// ```
/// use lokhazim::{grants, move_image_down, move_image_up, Heap, ImageRefusal};
///
/// let mut memory = [0; 128];
/// let heap = Heap::open(&mut memory, grants([100]))?;
/// let mut old = [0; 1_536];
/// heap.save_form_1(&mut old)?;
///
/// let mut image = [0; 5_120];
/// assert_eq!(move_image_up(&old, &mut image)?, 5_120);
/// assert_eq!(move_image_up(&image, &mut [0; 5_120]), Err(ImageRefusal::FormNumber));
///
/// let mut back = [0; 1_536];
/// move_image_down(&image, &mut back)?;
/// assert_eq!(back, old);
/// # Ok::<(), Box<dyn std::error::Error>>(())
/// ```
pub fn move_image_up(image: &[u8], out: &mut [u8]) -> Result<usize, ImageRefusal> {
    moved(&raw::image_move_up(image, out))
}

/// Writes the image in form 1 of the state in an image of form 2 to the front of `out`, for a board
/// that reads nothing else; gives its length. Bytes behind it stay. Hold records keep their places.
///
/// # Errors
///
/// [`ImageRefusal::ImageLength`], [`ImageRefusal::FrameWrong`], [`ImageRefusal::FormNumber`], which
/// an image of form 1 gives too, [`ImageRefusal::Contents`], [`ImageRefusal::Inconsistent`]; then
/// [`ImageRefusal::NotCarried`] where form 1 can't carry the accounts, then [`ImageRefusal::Room`]
/// where `out` is shorter than [`image_length_form_1`](crate::image_length_form_1) says. `out` is as
/// it was.
///
/// ```
/// use lokhazim::{grants, move_image_down, Heap, ImageRefusal, Permissions, QuotaId};
///
/// let mut memory = [0; 128];
/// let mut heap = Heap::open(&mut memory, grants([100]))?;
/// let mut image = [0; 5_120];
/// heap.save(&mut image)?;
/// assert_eq!(move_image_down(&image, &mut [0; 1_536])?, 1_536);
///
/// heap.clear_permissions(QuotaId::new(0), Permissions::FREE_ALL)?;
/// heap.save(&mut image)?;
/// assert_eq!(move_image_down(&image, &mut [0; 1_536]), Err(ImageRefusal::NotCarried));
/// # Ok::<(), Box<dyn std::error::Error>>(())
/// ```
pub fn move_image_down(image: &[u8], out: &mut [u8]) -> Result<usize, ImageRefusal> {
    moved(&raw::image_move_down(image, out))
}

/// The length that a reply answers.
fn moved(reply: &ImageReply) -> Result<usize, ImageRefusal> {
    verdict(reply.refusal).map(|()| reply.length)
}
