//! The blocks of an image: a stream of bytes cut into pieces, each with its number and a check.
//!
//! These blocks have nothing to do with the blocks of a heap.

/// The bytes of a block of an image.
pub(crate) const BLOCK_BYTES: usize = 512;

/// The stream bytes that a block carries.
const CARRIED_BYTES: usize = 504;

/// The bytes before the carried ones: the block's number and the number of blocks.
const FRONT_BYTES: usize = 4;

/// The bytes before the check.
const CHECKED_BYTES: usize = BLOCK_BYTES - 4;

/// Gives how many blocks carry a stream of this length.
pub(crate) fn blocks_for(stream_bytes: usize) -> usize {
    stream_bytes.div_ceil(CARRIED_BYTES)
}

/// Cuts a stream into blocks.
pub(crate) fn cut(stream: &[u8]) -> Vec<u8> {
    let count = blocks_for(stream.len());
    let pieces = stream.chunks(CARRIED_BYTES).enumerate();
    let blocks = pieces.map(|(number, piece)| block(number, count, piece));
    blocks.collect::<Vec<_>>().concat()
}

/// Makes one block; a short piece is padded with zeros.
fn block(number: usize, count: usize, piece: &[u8]) -> [u8; BLOCK_BYTES] {
    let mut block = [0; BLOCK_BYTES];
    // The longest stream has fewer blocks than 16 bits can count.
    block[0..2].copy_from_slice(&(number as u16).to_le_bytes());
    block[2..4].copy_from_slice(&(count as u16).to_le_bytes());
    block[FRONT_BYTES..FRONT_BYTES + piece.len()].copy_from_slice(piece);
    let check = check_of(&block);
    block[CHECKED_BYTES..].copy_from_slice(&check.to_le_bytes());
    block
}

/// Sums the words before the check in whole numbers and keeps the low 32 bits.
fn check_of(block: &[u8]) -> u32 {
    let words = block[..CHECKED_BYTES].chunks(4);
    let sum: u64 = words
        .map(|word| {
            word.iter()
                .rev()
                .fold(0, |sum, byte| sum * 256 + u64::from(*byte))
        })
        .sum();
    (sum % (1 << 32)) as u32
}

/// Gives the stream that whole blocks carry, with its padding; none if a block's
/// check, its number or its number of blocks is wrong.
pub(crate) fn join(image: &[u8]) -> Option<Vec<u8>> {
    let count = image.len() / BLOCK_BYTES;
    let mut stream = Vec::with_capacity(count * CARRIED_BYTES);
    for (number, block) in image.chunks(BLOCK_BYTES).enumerate() {
        let stated_number = u16::from_le_bytes([block[0], block[1]]);
        let stated_count = u16::from_le_bytes([block[2], block[3]]);
        let true_front = usize::from(stated_number) == number && usize::from(stated_count) == count;
        if !true_front || block[CHECKED_BYTES..] != check_of(block).to_le_bytes() {
            return None;
        }
        stream.extend_from_slice(&block[FRONT_BYTES..CHECKED_BYTES]);
    }
    Some(stream)
}
