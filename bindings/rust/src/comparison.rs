//! What differs between two images.

use core::error::Error;
use core::fmt;
use core::iter::FusedIterator;

use crate::image::{verdict, ImageRefusal};
use crate::layout::QuotaId;
use crate::raw;

/// One difference between two images, named without its values.
#[derive(Clone, Copy, Debug, PartialEq, Eq, Hash)]
#[non_exhaustive]
pub enum Difference {
    /// The last serial.
    LastSerial,
    /// The kind of the heap.
    Kind,
    /// The edition of the heap's rounding table.
    Edition,
    /// A quota: its grant, its remainder or its permissions.
    Quota(QuotaId),
    /// The hold record at this place.
    Record(usize),
    /// A run of heap bytes, as long as it can be: every byte of it differs.
    Bytes {
        /// The offset of its first byte in the heap.
        offset: usize,
        /// How many bytes it has.
        length: usize,
    },
}

impl fmt::Display for Difference {
    /// Writes what differs: `serial`, `kind`, `edition`, `quota NUMBER`, `record PLACE` or
    /// `bytes OFFSET LENGTH`.
    fn fmt(&self, f: &mut fmt::Formatter<'_>) -> fmt::Result {
        match self {
            Difference::LastSerial => f.write_str("serial"),
            Difference::Kind => f.write_str("kind"),
            Difference::Edition => f.write_str("edition"),
            Difference::Quota(quota) => write!(f, "quota {quota}"),
            Difference::Record(place) => write!(f, "record {place}"),
            Difference::Bytes { offset, length } => write!(f, "bytes {offset} {length}"),
        }
    }
}

/// Which of two images a refusal is about.
#[derive(Clone, Copy, Debug, PartialEq, Eq, Hash)]
pub enum Which {
    /// The first.
    First,
    /// The second.
    Second,
    /// Both together.
    Neither,
}

/// Why two images are not compared.
#[derive(Clone, Copy, Debug, PartialEq, Eq, Hash)]
pub struct CompareRefusal {
    /// The refusal, as [`compare_images`] names them.
    pub refusal: ImageRefusal,
    /// The image that it is about.
    pub which: Which,
}

impl fmt::Display for CompareRefusal {
    fn fmt(&self, f: &mut fmt::Formatter<'_>) -> fmt::Result {
        let about = match self.which {
            Which::First => "the first image: ",
            Which::Second => "the second image: ",
            Which::Neither => "",
        };
        write!(f, "{about}{}", self.refusal)
    }
}

impl Error for CompareRefusal {}

/// Lists everything that differs between two images of one form and nothing else: the last serial, the
/// kind, the edition, quotas, records, runs of heap bytes, each in rising order. There is nothing exactly
/// if the two images hold equal states, which is exactly if their bytes are equal.
///
/// # Errors
///
/// [`ImageRefusal::ImageLength`], [`ImageRefusal::FrameWrong`], [`ImageRefusal::FormNumber`],
/// [`ImageRefusal::Contents`], [`ImageRefusal::Inconsistent`] of the first image, then of the second,
/// then [`ImageRefusal::FormsDiffer`] and [`ImageRefusal::HeapLengths`].
///
/// ```
/// use lokhazim::{compare_images, Difference, Heap, QuotaId, QUOTAS};
///
/// let mut memory = [0; 128];
/// let mut heap = Heap::open(&mut memory, [100; QUOTAS])?;
/// let handle = heap.allocate(QuotaId::new(0), 10)?;
/// let (mut before, mut after) = ([0; 5_120], [0; 5_120]);
/// heap.save(&mut before)?;
/// heap.lend_mut(handle)?[2..5].fill(7);
/// heap.save(&mut after)?;
/// let differences: Vec<_> = compare_images(&before, &after)?.collect();
/// assert_eq!(differences, [Difference::Bytes { offset: 10, length: 3 }]);
/// # Ok::<(), Box<dyn std::error::Error>>(())
/// ```
pub fn compare_images<'a>(
    first: &'a [u8],
    second: &'a [u8],
) -> Result<Differences<'a>, CompareRefusal> {
    let reply = raw::image_compare(first, second, 0);
    verdict(reply.refusal).map_err(|refusal| CompareRefusal {
        refusal,
        which: match reply.which {
            1 => Which::First,
            2 => Which::Second,
            _ => Which::Neither,
        },
    })?;
    Ok(Differences {
        first,
        second,
        part: 0,
        at: 0,
    })
}

/// The differences of two images, one after the other.
#[derive(Clone, Debug)]
pub struct Differences<'a> {
    first: &'a [u8],
    second: &'a [u8],
    part: u32,
    at: usize,
}

impl Iterator for Differences<'_> {
    type Item = Difference;

    fn next(&mut self) -> Option<Difference> {
        let reply = raw::image_next(self.first, self.second, self.part, self.at);
        let found = match reply.kind {
            1 => Difference::LastSerial,
            // A quota's number is below 32.
            2 => Difference::Quota(QuotaId::new(reply.place as u32)),
            3 => Difference::Record(reply.place),
            4 => Difference::Bytes {
                offset: reply.place,
                length: reply.length,
            },
            5 => Difference::Kind,
            6 => Difference::Edition,
            _ => return None,
        };
        (self.part, self.at) = (reply.part, reply.at);
        Some(found)
    }
}

impl FusedIterator for Differences<'_> {}
