//! Handles of a part of an object (rules 4.3 and 4.6 to 4.10), through the crate's own types.

use std::ops::Bound;

use lokhazim::{Handle, Heap, QuotaId, Refusal, QUOTAS};

const WHOLE: Handle = Handle {
    base: 8,
    length: 16,
    serial: 1,
};

/// A handle of a part, counted from the whole's first byte, without a look at the whole's length.
fn part(at: u32, length: u32) -> Handle {
    Handle {
        base: WHOLE.base + at,
        length,
        ..WHOLE
    }
}

/// A heap with one object of 16 bytes, which quota 0 holds, and another behind it.
fn begin(bytes: &mut [u8]) -> Result<Heap<'_>, Refusal> {
    let mut heap = Heap::open(bytes, [500; QUOTAS])?;
    assert_eq!(heap.allocate(QuotaId::new(0), 16)?, WHOLE);
    heap.allocate(QuotaId::new(0), 8)?;
    Ok(heap)
}

#[test]
fn a_part_is_given_exactly_if_it_has_a_byte_and_lies_inside() {
    for start in 0..20 {
        for end in 0..20 {
            let inside = start < end && end <= 16;
            let expected = inside.then(|| part(start, end - start));
            assert_eq!(WHOLE.narrowed(start..end), expected, "{start}..{end}");
        }
    }
    assert_eq!(WHOLE.narrowed(u32::MAX..u32::MAX), None);
    assert_eq!(WHOLE.narrowed(0..u32::MAX), None);
    assert_eq!(WHOLE.narrowed(u32::MAX..), None);
}

#[test]
fn every_kind_of_range_is_taken() {
    assert_eq!(WHOLE.narrowed(..), Some(WHOLE));
    assert_eq!(WHOLE.narrowed(3..), Some(part(3, 13)));
    assert_eq!(WHOLE.narrowed(..3), Some(part(0, 3)));
    assert_eq!(WHOLE.narrowed(..=3), Some(part(0, 4)));
    assert_eq!(WHOLE.narrowed(3..=15), Some(part(3, 13)));
    assert_eq!(WHOLE.narrowed(3..=16), None);
    assert_eq!(WHOLE.narrowed(..=u32::MAX), None);
    assert_eq!(WHOLE.narrowed(16..), None);
    let behind = |start| (Bound::Excluded(start), Bound::Unbounded);
    assert_eq!(WHOLE.narrowed(behind(3)), Some(part(4, 12)));
    assert_eq!(WHOLE.narrowed(behind(u32::MAX)), None);
}

#[test]
fn a_base_never_wraps() {
    let forged = Handle {
        base: u32::MAX - 1,
        length: 9,
        serial: 1,
    };
    let last = Handle {
        base: u32::MAX,
        length: 8,
        serial: 1,
    };
    assert_eq!(forged.narrowed(1..), Some(last));
    assert_eq!(forged.narrowed(2..), None);
}

/// A part of a part counts from its own first byte, and can't be wider.
#[test]
fn parts_are_narrowed_again() {
    let middle = WHOLE.narrowed(4..12).expect("inside");
    assert_eq!(middle.narrowed(2..5), Some(part(6, 3)));
    assert_eq!(middle.narrowed(..9), None);
}

#[test]
fn lending_gives_the_part_alone() -> Result<(), Refusal> {
    for start in 0..16 {
        for end in start + 1..=16 {
            let mut memory = [0; 128];
            let mut heap = begin(&mut memory)?;
            let part = WHOLE.narrowed(start..end).expect("inside");
            let before = heap.parts().0.to_vec();
            let lent = heap.lend_mut(part)?;
            assert_eq!(lent.len() as u32, end - start);
            lent.fill(7);
            heap.write(part, 0, 8)?;
            heap.write(part, end - start, 9)?;
            let mut after = before;
            after[8 + start as usize..8 + end as usize].fill(7);
            after[8 + start as usize] = 8;
            assert_eq!(heap.parts().0, after);
            assert_eq!(
                heap.lend(part)?,
                &after[part.base as usize..][..part.length as usize]
            );
        }
    }
    Ok(())
}

#[test]
fn holds_are_on_the_whole_object() -> Result<(), Refusal> {
    let mut memory = [0; 128];
    let mut heap = begin(&mut memory)?;
    let (front, last) = (WHOLE.narrowed(..1).unwrap(), WHOLE.narrowed(15..).unwrap());
    assert_eq!(heap.claim(QuotaId::new(1), front)?, 16);
    assert_eq!(heap.claim(QuotaId::new(1), last)?, 16);
    assert_eq!(heap.remaining(QuotaId::new(1))?, 500 - 24);
    assert_eq!(
        heap.can_release(QuotaId::new(2), last),
        Err(Refusal::NotHeld)
    );
    assert_eq!(heap.can_release(QuotaId::new(1), last), Ok(()));
    assert_eq!(heap.release(QuotaId::new(0), last)?, 24);
    assert_eq!(heap.release(QuotaId::new(1), front)?, 0);
    assert_eq!(heap.release(QuotaId::new(1), WHOLE)?, 24);
    for gone in [WHOLE, front, last] {
        assert_eq!(heap.lend(gone), Err(Refusal::NoSuchObject));
    }
    Ok(())
}

#[test]
fn reallocate_takes_the_whole_handle_alone() -> Result<(), Refusal> {
    let mut memory = [0; 128];
    let mut heap = begin(&mut memory)?;
    for narrower in [WHOLE.narrowed(..15), WHOLE.narrowed(1..)] {
        let narrower = narrower.expect("inside");
        let before = heap.accounts().clone();
        assert_eq!(
            heap.reallocate(QuotaId::new(0), narrower, 8),
            Err(Refusal::NoSuchObject)
        );
        assert_eq!(
            heap.reallocate(QuotaId::new(0), narrower, 0),
            Err(Refusal::ObjectLength)
        );
        assert_eq!(heap.accounts(), &before);
    }
    let moved = heap.reallocate(QuotaId::new(0), WHOLE.narrowed(..).expect("all of it"), 24)?;
    assert_eq!(moved.length, 24);
    Ok(())
}
