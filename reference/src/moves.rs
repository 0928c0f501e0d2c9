//! Images moved from one form to the other.
//!
//! A move reads the state and writes it again; nothing is carried over byte by byte.

use crate::forms::{FORM_1, FORM_2};
use crate::image::{decode_sound, write_form_1, write_image, ImageRefusal};

/// Writes the image in form 2 of the state in an image of form 1, and gives its length; bytes
/// of the output behind it stay.
pub fn move_up(image: &[u8], output: &mut [u8]) -> Result<usize, ImageRefusal> {
    let stored = decode_sound(image, &[FORM_1])?;
    write_image(output, &stored.heap, &stored.accounts)
}

/// Writes the image in form 1 of the state in an image of form 2, if form 1 has room for it, and
/// gives its length; bytes of the output behind it stay.
pub fn move_down(image: &[u8], output: &mut [u8]) -> Result<usize, ImageRefusal> {
    let stored = decode_sound(image, &[FORM_2])?;
    write_form_1(output, &stored.heap, &stored.accounts)
}
