//! What differs between two images, as a list that is made all at once.

use crate::forms::{FORM_1, FORM_2};
use crate::image::{decode_sound, ImageRefusal};

/// One difference, named without its values.
#[derive(Clone, Copy, Debug, PartialEq, Eq, Hash)]
pub enum Difference {
    /// The last serials.
    LastSerial,
    /// The kinds.
    Kind,
    /// The editions of the table of units.
    Edition,
    /// The quotas of this number, in grant, remainder or permissions.
    Quota(usize),
    /// The hold records at this place.
    Record(usize),
    /// The heap bytes from this offset on, so many in a row.
    Bytes(usize, usize),
}

/// Which image a refusal is about.
#[derive(Clone, Copy, Debug, PartialEq, Eq, Hash)]
pub enum Which {
    /// The first image.
    First,
    /// The second image.
    Second,
    /// Both together.
    Neither,
}

/// Lists all that differs in the states of two images, in the order of the rules.
pub fn differences(first: &[u8], second: &[u8]) -> Result<Vec<Difference>, (ImageRefusal, Which)> {
    let read = |image, which| {
        let stored = decode_sound(image, &[FORM_1, FORM_2]);
        stored.map_err(|refusal| (refusal, which))
    };
    let first = read(first, Which::First)?;
    let second = read(second, Which::Second)?;
    if first.form != second.form {
        return Err((ImageRefusal::TwoForms, Which::Neither));
    }
    if first.heap.len() != second.heap.len() {
        return Err((ImageRefusal::HeapLengths, Which::Neither));
    }
    let (a, b) = (&first.accounts, &second.accounts);
    let serial = (a.last_serial != b.last_serial).then_some(Difference::LastSerial);
    let kind = (a.kind != b.kind).then_some(Difference::Kind);
    let edition = (a.edition != b.edition).then_some(Difference::Edition);
    let quotas = unequal(&a.quotas, &b.quotas).map(Difference::Quota);
    let records = unequal(&a.holds, &b.holds).map(Difference::Record);
    let bytes = runs(&unequal(&first.heap, &second.heap).collect::<Vec<_>>());
    let head = serial.into_iter().chain(kind).chain(edition);
    Ok(head.chain(quotas).chain(records).chain(bytes).collect())
}

/// The places at which two lists of one length have different items.
fn unequal<'a, T: PartialEq>(a: &'a [T], b: &'a [T]) -> impl Iterator<Item = usize> + 'a {
    (0..a.len()).filter(|place| a[*place] != b[*place])
}

/// Rising offsets as runs of neighbours.
fn runs(offsets: &[usize]) -> Vec<Difference> {
    let neighbours = offsets.chunk_by(|before, after| before + 1 == *after);
    neighbours
        .map(|run| Difference::Bytes(run[0], run.len()))
        .collect()
}
