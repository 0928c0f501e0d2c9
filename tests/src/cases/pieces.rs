//! A heap's length cut into blocks, at random: live, free and quarantined ones.

use crate::judge::cut::QUARANTINED;
use crate::judge::ledger::unit;
use crate::seed::Seed;

/// A block of a plan: its size in bytes, and its serial.
#[derive(Clone, Copy, Debug, PartialEq, Eq)]
pub struct Piece {
    /// The size in bytes, header included.
    pub size: u32,
    /// The serial, 0 for a free block, and that of quarantine for a quarantined one.
    pub serial: u32,
}

/// Sizes of blocks whose objects stand at the bounds of the rows of either rounding table.
const ROW_SIZES: [u32; 15] = [
    4_096, 4_104, 4_120, 8_184, 8_192, 8_200, 8_216, 8_232, 16_360, 16_376, 16_392, 16_424, 16_456,
    32_712, 32_744,
];

/// Cuts a heap of an edition into pieces, at most so many of them live; a live one has serial 1 until
/// serials are given out.
pub(crate) fn cut(seed: &mut Seed, edition: u8, length: u32, most: usize) -> Vec<Piece> {
    let crowd = seed.pick(&[3, 12, 40, most, most]);
    let longest = seed.pick(&[2, 4, 12, 60, 600, 2_400]);
    let share = seed.pick(&[30, 60, 90, 100]);
    let long = length >= 8_192;
    let mut pieces: Vec<Piece> = Vec::new();
    let (mut left, mut live) = (length, 0);
    while left > 0 {
        let after_free = pieces.last().is_some_and(|piece| piece.serial == 0);
        let wanted = live < crowd && left >= 16 && (after_free || seed.percent(share));
        let size = match wanted {
            true if long && seed.percent(30) => left.min(seed.pick(&ROW_SIZES)),
            true => left.min(8 * (2 + seed.below(longest))),
            false if live >= crowd => left,
            false => left.min(8 * (1 + seed.below(longest))),
        };
        let (front, size) = match wanted {
            true => fitted(edition, length - left, size, left),
            false => (size, 0),
        };
        add_free(&mut pieces, front);
        if wanted {
            pieces.push(Piece { size, serial: 1 });
        }
        live += usize::from(wanted);
        left -= front + size;
    }
    pieces
}

/// Gives the bytes of most free pieces, and of some live ones, to quarantined blocks.
pub(crate) fn quarantine_some(seed: &mut Seed, pieces: Vec<Piece>) -> Vec<Piece> {
    let share = seed.pick(&[30, 60, 90, 100]);
    let gaps = seed.pick(&[0, 0, 30, 100]);
    let longest = seed.pick(&[1, 1, 3, 40, 600]);
    let mut all: Vec<Piece> = Vec::new();
    for piece in pieces {
        let taken = match piece.serial {
            0 => seed.percent(share),
            _ => seed.percent(share / 3),
        };
        match piece.serial {
            _ if taken => quarantine(seed, &mut all, piece.size, longest, gaps),
            0 => add_free(&mut all, piece.size),
            _ => all.push(piece),
        }
    }
    all
}

/// Cuts bytes into quarantined blocks of 16 bytes or more, side by side or with 8 free bytes between
/// them; what is too short is free.
fn quarantine(seed: &mut Seed, pieces: &mut Vec<Piece>, bytes: u32, longest: u32, gaps: u32) {
    let mut left = bytes;
    while left >= 16 {
        let gap = 8 * u32::from(left >= 24 && seed.percent(gaps));
        let size = (8 * seed.between(2, 1 + longest)).min(left - gap);
        let serial = QUARANTINED;
        add_free(pieces, gap);
        pieces.push(Piece { size, serial });
        left -= gap + size;
    }
    add_free(pieces, left);
}

/// Gives the free bytes that a live block needs in front of it, and the size that it has then, so
/// that its object fits its unit. The block is to start at the offset or behind it.
fn fitted(edition: u8, offset: u32, size: u32, left: u32) -> (u32, u32) {
    let unit = unit(edition, size - 8);
    let front = (offset + 8).next_multiple_of(unit) - (offset + 8);
    let length = (size.min(left - front) - 8) / unit * unit;
    (front, 8 + length)
}

/// Adds free bytes behind the pieces; a free piece in front of them takes them in.
fn add_free(pieces: &mut Vec<Piece>, size: u32) {
    match pieces.last_mut() {
        _ if size == 0 => {}
        Some(before) if before.serial == 0 => before.size += size,
        _ => pieces.push(Piece { size, serial: 0 }),
    }
}
