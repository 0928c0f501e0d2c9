//! Both editions of the rounding table through the crate's own types.

use lokhazim::{
    Aligned, Edition, Heap, Kind, Options, QuotaId, Refusal, HEAP_MAX, QUOTAS, REQUEST_MAX,
};

/// The settings of both kinds in an edition.
fn settings(edition: Edition) -> [Options; 2] {
    [Kind::Plain, Kind::Quarantine].map(|kind| Options { kind, edition })
}

/// Requests with the length and the unit of their objects, at the bounds of each row.
const FIRST: [(u32, u32, u32); 8] = [
    (1, 8, 8),
    (4_089, 4_096, 8),
    (8_184, 8_184, 8),
    (8_185, 8_192, 16),
    (8_193, 8_208, 16),
    (16_368, 16_368, 16),
    (16_369, 16_384, 32),
    (32_736, 32_736, 32),
];

/// The same of the second edition.
const SECOND: [(u32, u32, u32); 8] = [
    (1, 8, 8),
    (4_088, 4_088, 8),
    (4_089, 4_096, 16),
    (8_176, 8_176, 16),
    (8_177, 8_192, 32),
    (16_352, 16_352, 32),
    (16_353, 16_384, 64),
    (32_704, 32_704, 64),
];

#[test]
fn each_edition_rounds_by_its_table() -> Result<(), Refusal> {
    let mut memory = Aligned([0; HEAP_MAX]);
    for (edition, rows) in [(Edition::First, FIRST), (Edition::Second, SECOND)] {
        for (settings, (request, length, unit)) in settings(edition)
            .into_iter()
            .flat_map(|settings| rows.map(|row| (settings, row)))
        {
            let mut heap = Heap::open_with(&mut memory.0, [40_000; QUOTAS], settings)?;
            let handle = heap.allocate(QuotaId::new(0), request)?;
            assert_eq!((handle.length, handle.base), (length, unit), "{request}");
            let address = heap.lend(handle)?.as_ptr().addr();
            assert!(address.is_multiple_of(unit as usize), "{request}");
        }
    }
    Ok(())
}

#[test]
fn the_longest_requests_fit_no_heap() -> Result<(), Refusal> {
    let mut memory = [0; HEAP_MAX];
    for (edition, from) in [(Edition::First, 32_737), (Edition::Second, 32_705)] {
        for settings in settings(edition) {
            let mut heap = Heap::open_with(&mut memory, [32_776; QUOTAS], settings)?;
            for request in from..=REQUEST_MAX {
                assert_eq!(
                    heap.allocate(QuotaId::new(0), request),
                    Err(Refusal::NoSpace),
                    "{request}"
                );
            }
            let mut heap = Heap::open_with(&mut memory, [32_775; QUOTAS], settings)?;
            for request in from..=REQUEST_MAX {
                let refused = heap.allocate(QuotaId::new(0), request);
                assert_eq!(refused, Err(Refusal::QuotaExceeded), "{request}");
            }
        }
    }
    Ok(())
}

/// Takes up a heap of an edition with an object of 4,096 bytes, with another number for its edition.
fn taken_up(edition: Edition, number: u8) -> Result<Edition, Refusal> {
    let mut memory = [0; 8_192];
    let mut heap = Heap::open_with(&mut memory, [9_000; QUOTAS], settings(edition)[0])?;
    heap.allocate(QuotaId::new(0), 4_089)?;
    let (bytes, mut accounts) = heap.into_parts();
    accounts.edition = number;
    Heap::from_parts(bytes, &accounts).map(|heap| heap.edition())
}

#[test]
fn a_heap_is_sound_by_its_own_edition() {
    assert_eq!(taken_up(Edition::First, 0), Ok(Edition::First));
    assert_eq!(taken_up(Edition::First, 1), Err(Refusal::Inconsistent));
    assert_eq!(taken_up(Edition::Second, 0), Ok(Edition::First));
    assert_eq!(taken_up(Edition::Second, 1), Ok(Edition::Second));
    for number in 2..=255 {
        for edition in [Edition::First, Edition::Second] {
            let refused = taken_up(edition, number);
            assert_eq!(refused, Err(Refusal::Inconsistent), "{number}");
        }
    }
}

#[test]
fn editions_and_their_numbers() {
    for number in 0..=255 {
        match Edition::from_number(number) {
            Some(edition) => assert_eq!(edition.number(), number),
            None => assert!(number > 1),
        }
    }
    let plain = Options {
        kind: Kind::Plain,
        edition: Edition::First,
    };
    assert_eq!(Options::default(), plain);
}
