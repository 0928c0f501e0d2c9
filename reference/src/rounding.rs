//! Rounding of a requested length to the length of the object (rules, section 6).

use crate::options::Edition;
use crate::refusal::Refusal;

/// The largest length or product that may be requested.
pub const MAX_REQUEST: u64 = 32_760;

/// The rows of the second edition but the last: the greatest length of each, and its unit.
const SECOND_EDITION: [(u32, u32); 4] = [(4_088, 8), (8_176, 16), (16_352, 32), (32_704, 64)];

/// The unit of the last row of the second edition.
const SECOND_EDITION_LAST: u32 = 128;

/// The object length for a request, and the alignment of its base.
#[derive(Clone, Copy, Debug, PartialEq, Eq)]
pub struct Rounded {
    /// The base is a multiple of it: the unit of the object's length.
    pub alignment: u32,
    /// The object's length in bytes.
    pub length: u32,
}

impl Edition {
    /// Gives the unit of a length.
    pub fn unit_of(self, length: u32) -> u32 {
        match self {
            Edition::First => unit_of(length),
            Edition::Second => {
                let mut rows = SECOND_EDITION.into_iter();
                let row = rows.find(|(greatest, _)| length <= *greatest);
                row.map_or(SECOND_EDITION_LAST, |(_, unit)| unit)
            }
        }
    }

    /// Rounds a request up to a multiple of its unit (rules 6.2 and 6.3), or gives refusal 4.
    pub fn round(self, request: u64) -> Result<Rounded, Refusal> {
        if !(1..=MAX_REQUEST).contains(&request) {
            return Err(Refusal::RequestLength);
        }
        // The request is at most MAX_REQUEST here, so it fits 32 bits.
        let request = request as u32;
        let length = request.next_multiple_of(self.unit_of(request));
        let alignment = self.unit_of(length);
        Ok(Rounded { alignment, length })
    }
}

/// Gives the unit of a length in the first edition (rule 6.1).
// OPEN: that 0 has the first row's unit and every length from 32,768 on the last
// row's is a choice of rule 6.5; no object has such a length.
pub fn unit_of(length: u32) -> u32 {
    match length {
        ..=8_191 => 8,
        8_192..=16_383 => 16,
        16_384..=32_767 => 32,
        32_768.. => 64,
    }
}

/// Rounds a request in the first edition.
pub fn round_request(request: u64) -> Result<Rounded, Refusal> {
    Edition::First.round(request)
}
