//! Images of form 1: the worked example of rule 13.20 byte by byte, and each refusal of the reader.

use lokhazim_reference::*;

use crate::state::grants;

/// A fresh heap of 64 bytes with grants of 100 and 1,000, and its image.
fn example() -> (Vec<u8>, Accounts, Vec<u8>) {
    let mut heap = vec![0; 64];
    let (accounts, opened) = open(&mut heap, grants(&[100, 1_000]));
    assert_eq!(opened, Ok(()));
    let mut image = vec![0; 1_536];
    assert_eq!(write_form_1(&mut image, &heap, &accounts), Ok(1_536));
    (heap, accounts, image)
}

/// The number of the refusal by which the image is not read into a heap of so many bytes.
pub fn refused(image: &[u8], heap_bytes: usize) -> u8 {
    let mut heap = vec![9; heap_bytes];
    let answer = read_image(image, &mut heap);
    assert_eq!(heap, vec![9; heap_bytes], "a refused read changes nothing");
    answer.expect_err("the image is refused").number()
}

/// Writes the check of every frame anew.
pub fn seal(image: &mut [u8]) {
    for frame in image.chunks_mut(512) {
        let words = frame[..508].chunks(4);
        let sum = words.fold(0_u32, |sum, w| {
            sum.wrapping_add(u32::from_le_bytes([w[0], w[1], w[2], w[3]]))
        });
        frame[508..].copy_from_slice(&sum.to_le_bytes());
    }
}

/// The image with another byte at a place, and right checks.
pub fn with(image: &[u8], place: usize, byte: u8) -> Vec<u8> {
    let mut changed = image.to_vec();
    changed[place] = byte;
    seal(&mut changed);
    changed
}

#[test]
fn the_worked_example_byte_by_byte() {
    let mut expected = vec![0_u8; 1_536];
    for (place, byte) in [
        (2, 3),
        (4, 1),
        (8, 0x40),
        (16, 0x64),
        (20, 0x64),
        (24, 0xE8),
        (25, 0x03),
        (28, 0xE8),
        (29, 0x03),
        (508, 0xD9),
        (509, 0x08),
        (510, 0x03),
        (512, 1),
        (514, 3),
        (1_020, 0x01),
        (1_022, 0x03),
        (1_024, 2),
        (1_026, 3),
        (1_120, 8),
        (1_532, 0x0A),
        (1_534, 0x03),
    ] {
        expected[place] = byte;
    }
    assert_eq!(example().2, expected);
}

#[test]
fn what_is_written_is_read_back() {
    let (heap, accounts, image) = example();
    let mut other = vec![7; 64];
    assert_eq!(read_image(&image, &mut other), Ok(accounts));
    assert_eq!(other, heap);
}

#[test]
fn the_writers_refusals() {
    let (heap, accounts, _) = example();
    let number = |image: &mut [u8], heap: &[u8], accounts: &Accounts| {
        write_form_1(image, heap, accounts).map_err(ImageRefusal::number)
    };
    let mut short = [5; 1_535];
    assert_eq!(number(&mut short, &heap, &accounts), Err(25));
    assert_eq!(number(&mut [], &heap[..56], &accounts), Err(1));
    assert_eq!(number(&mut [], &[0; 64], &accounts), Err(2));
    assert_eq!(short, [5; 1_535]);
    let mut long = [5; 1_540];
    assert_eq!(number(&mut long, &heap, &accounts), Ok(1_536));
    assert_eq!(long[1_536..], [5; 4]);
}

#[test]
fn the_readers_refusals_in_their_order() {
    let image = example().2;
    assert_eq!(refused(&[], 64), 21);
    assert_eq!(refused(&image[..1_535], 64), 21);
    assert_eq!(refused(&image[..1_024], 64), 22);
    assert_eq!(refused(&[image.clone(), vec![0; 512]].concat(), 64), 22);
    assert_eq!(refused(&with(&image, 0, 1), 64), 22);
    assert_eq!(refused(&with(&image, 2, 4), 64), 22);
    assert_eq!(refused(&with(&image, 4, 0), 64), 23);
    assert_eq!(refused(&with(&image, 4, 3), 64), 23);
    assert_eq!(refused(&with(&image, 5, 1), 64), 23);
    assert_eq!(refused(&with(&image, 4, 2), 64), 24, "form 2 is longer");
    assert_eq!(refused(&with(&image, 6, 1), 64), 23);
    assert_eq!(refused(&with(&image, 7, 1), 64), 23);
    assert_eq!(refused(&with(&image, 8, 65), 64), 24);
    assert_eq!(refused(&with(&image, 9, 64), 64), 24);
    assert_eq!(refused(&with(&image, 1_531, 1), 64), 24);
    assert_eq!(refused(&with(&image, 80 + 6, 1), 64), 24);
    assert_eq!(refused(&with(&image, 8, 72), 64), 25);
    assert_eq!(refused(&image, 72), 25);
    assert_eq!(refused(&with(&image, 8, 72), 72), 26);
    assert_eq!(refused(&with(&image, 80 + 4, 3), 64), 26);
    assert_eq!(refused(&with(&image, 16, 101), 64), 26);
}
