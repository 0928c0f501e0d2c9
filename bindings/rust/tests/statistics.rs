//! The statistics of a heap through the crate: of each kind and edition, after calls, and where they are refused.

use lokhazim::{
    Aligned, BlockCount, Edition, Heap, Kind, Options, QuotaId, QuotaStatistics, Refusal,
    Statistics, QUOTAS, UNITS,
};

#[test]
fn every_field_is_told() -> Result<(), Refusal> {
    let mut memory = Aligned([0; 256]);
    let options = Options {
        kind: Kind::Quarantine,
        edition: Edition::First,
    };
    let mut heap = Heap::open_with(&mut memory.0, [200; QUOTAS], options)?;
    let first = heap.allocate(QuotaId::new(0), 40)?;
    let second = heap.allocate(QuotaId::new(1), 16)?;
    heap.allocate(QuotaId::new(0), 32)?;
    heap.claim(QuotaId::new(0), second)?;
    heap.release(QuotaId::new(0), first)?;
    let wanted = Statistics {
        last_serial: 3,
        records: 3,
        free: BlockCount {
            blocks: 1,
            bytes: 144,
        },
        live: BlockCount {
            blocks: 2,
            bytes: 64,
        },
        quarantined: BlockCount {
            blocks: 1,
            bytes: 48,
        },
        largest_free: 144,
        fragmented: 0,
        largest: [136, 0, 0, 0],
    };
    assert_eq!(heap.statistics()?, wanted);
    heap.sweep()?;
    let swept = heap.statistics()?;
    assert_eq!((swept.free.blocks, swept.fragmented), (2, 48));
    let quota = |objects, shared, remaining| QuotaStatistics {
        grant: 200,
        remaining,
        objects,
        shared,
    };
    assert_eq!(heap.quota_statistics(QuotaId::new(0))?, quota(2, 1, 136));
    assert_eq!(heap.quota_statistics(QuotaId::new(1))?, quota(1, 1, 176));
    assert_eq!(heap.quota_statistics(QuotaId::new(31))?, quota(0, 0, 200));
    assert_eq!(
        heap.quota_statistics(QuotaId::new(32)),
        Err(Refusal::QuotaNumber)
    );
    Ok(())
}

#[test]
fn the_longest_request_is_made_and_one_more_is_refused() -> Result<(), Refusal> {
    for edition in [Edition::First, Edition::Second] {
        let options = Options {
            kind: Kind::Plain,
            edition,
        };
        for length in [64, 4_112, 8_208, 16_448, 32_768] {
            let mut memory = Aligned([0; 32_768]);
            let mut heap = Heap::open_with(&mut memory.0[..length], [40_000; QUOTAS], options)?;
            let stats = heap.statistics()?;
            assert!(UNITS.contains(&8) && stats.largest_request() + 8 <= length);
            for largest in stats.largest.into_iter().filter(|largest| *largest > 0) {
                let handle = heap.allocate(QuotaId::new(0), largest as u32)?;
                assert_eq!(handle.length as usize, largest);
                heap.release(QuotaId::new(0), handle)?;
            }
            let more = stats.largest_request() as u32 + 1;
            assert_eq!(
                heap.allocate(QuotaId::new(0), more),
                Err(Refusal::NoSpace),
                "{length}"
            );
        }
    }
    Ok(())
}

#[test]
fn damage_is_refused() -> Result<(), Refusal> {
    let mut memory = [0; 64];
    let (bytes, accounts) = Heap::open(&mut memory, [100; QUOTAS])?.into_parts();
    bytes[0] = 7;
    let told = Heap::from_parts(bytes, &accounts).and_then(|heap| heap.statistics());
    assert_eq!(told, Err(Refusal::Inconsistent));
    Ok(())
}
