//! Heaps with quarantine through the crate's own types.

use lokhazim::{
    grants, Accounts, Block, Edition, Handle, Heap, Kind, Options, QuotaId, Refusal, HEAP_MAX,
    HOLDS, QUARANTINED, QUOTAS, SERIAL_MAX,
};

const QUARANTINE: Options = Options {
    kind: Kind::Quarantine,
    edition: Edition::First,
};

/// The blocks of a heap by offset, size and serial.
fn blocks(heap: &Heap) -> Result<Vec<(usize, usize, u32)>, Refusal> {
    let blocks: Result<Vec<Block>, Refusal> = heap.blocks().collect();
    Ok(blocks?
        .into_iter()
        .map(|block| (block.offset, block.size, block.serial))
        .collect())
}

#[test]
fn released_blocks_wait_side_by_side() -> Result<(), Refusal> {
    let mut memory = [9; 128];
    let mut heap = Heap::open_with(&mut memory, grants([200, 200]), QUARANTINE)?;
    let handles = [
        heap.allocate(QuotaId::new(0), 16)?,
        heap.allocate(QuotaId::new(0), 16)?,
        heap.allocate(QuotaId::new(0), 16)?,
    ];
    heap.lend_mut(handles[1])?.fill(7);
    heap.claim(QuotaId::new(1), handles[0])?;
    assert_eq!(heap.release(QuotaId::new(0), handles[0])?, 24);
    assert_eq!(heap.lend(handles[0])?, [0; 16]);
    assert_eq!(heap.release(QuotaId::new(1), handles[0])?, 24);
    assert_eq!(heap.release(QuotaId::new(0), handles[1])?, 24);
    let waiting = [
        (0, 24, QUARANTINED),
        (24, 24, QUARANTINED),
        (48, 24, 3),
        (72, 56, 0),
    ];
    assert_eq!(blocks(&heap)?, waiting);
    assert_eq!(heap.parts().0[32..48], [0; 16]);
    let states: Result<Vec<_>, Refusal> = heap
        .blocks()
        .map(|b| b.map(|b| (b.is_live(), b.is_quarantined(), b.is_free())))
        .collect();
    let (live, waits, free) = (
        (true, false, false),
        (false, true, false),
        (false, false, true),
    );
    assert_eq!(states?, [waits, waits, live, free]);
    assert_eq!(heap.allocate(QuotaId::new(0), 56), Err(Refusal::NoSpace));
    assert_eq!(heap.allocate(QuotaId::new(0), 48)?.base, 80);
    assert_eq!(heap.sweep()?, 48);
    assert_eq!(blocks(&heap)?, [(0, 48, 0), (48, 24, 3), (72, 56, 4)]);
    heap.check()
}

#[test]
fn a_sweep_joins_on_both_sides() -> Result<(), Refusal> {
    let mut memory = [0; 128];
    let mut heap = Heap::open_with(&mut memory, grants([200]), QUARANTINE)?;
    let first = heap.allocate(QuotaId::new(0), 16)?;
    let second = heap.allocate(QuotaId::new(0), 16)?;
    heap.release(QuotaId::new(0), first)?;
    assert_eq!(heap.sweep()?, 24);
    heap.release(QuotaId::new(0), second)?;
    assert_eq!(
        blocks(&heap)?,
        [(0, 24, 0), (24, 24, QUARANTINED), (48, 80, 0)]
    );
    assert_eq!(heap.sweep()?, 24);
    assert_eq!(blocks(&heap)?, [(0, 128, 0)]);
    assert_eq!(heap.parts().0[2..], [0; 126]);
    Ok(())
}

/// A quarantined block is nobody's, by its old handle and by one with its own serial.
#[test]
fn a_quarantined_block_has_no_handle() -> Result<(), Refusal> {
    let mut memory = [0; 64];
    let mut heap = Heap::open_with(&mut memory, [100; QUOTAS], QUARANTINE)?;
    let old = heap.allocate(QuotaId::new(0), 56)?;
    heap.release(QuotaId::new(0), old)?;
    let marked = Handle {
        serial: QUARANTINED,
        ..old
    };
    for handle in [old, marked, marked.narrowed(..1).unwrap()] {
        assert_eq!(heap.lend(handle), Err(Refusal::NoSuchObject));
        assert_eq!(
            heap.claim(QuotaId::new(1), handle),
            Err(Refusal::NoSuchObject)
        );
        assert_eq!(
            heap.release(QuotaId::new(0), handle),
            Err(Refusal::NoSuchObject)
        );
        assert_eq!(
            heap.can_release(QuotaId::new(0), handle),
            Err(Refusal::NoSuchObject)
        );
        assert_eq!(heap.write(handle, 0, 1), Err(Refusal::NoSuchObject));
        assert_eq!(
            heap.reallocate(QuotaId::new(0), handle, 8),
            Err(Refusal::NoSuchObject)
        );
    }
    Ok(())
}

/// Reallocating leaves the old block in quarantine.
#[test]
fn reallocating_quarantines_the_old_block() -> Result<(), Refusal> {
    let mut memory = [0; 128];
    let mut heap = Heap::open_with(&mut memory, grants([200]), QUARANTINE)?;
    let old = heap.allocate(QuotaId::new(0), 16)?;
    heap.lend_mut(old)?.fill(5);
    let moved = heap.reallocate(QuotaId::new(0), old, 24)?;
    assert_eq!(heap.lend(moved)?[..16], [5; 16]);
    assert_eq!(
        blocks(&heap)?,
        [(0, 24, QUARANTINED), (24, 32, 2), (56, 72, 0)]
    );
    assert_eq!(heap.parts().0[8..24], [0; 16]);
    Ok(())
}

/// More blocks wait than there are hold records.
#[test]
fn more_blocks_wait_than_there_are_records() -> Result<(), Refusal> {
    let mut memory = [0; HEAP_MAX];
    let mut heap = Heap::open_with(&mut memory, grants([1_000_000]), QUARANTINE)?;
    for _ in 0..HOLDS {
        heap.allocate(QuotaId::new(0), 8)?;
    }
    assert_eq!(
        heap.allocate(QuotaId::new(0), 8),
        Err(Refusal::HoldsExhausted)
    );
    assert_eq!(heap.free_all(QuotaId::new(0))?, 16 * HOLDS as u32);
    for _ in 0..HOLDS {
        let handle = heap.allocate(QuotaId::new(0), 8)?;
        heap.release(QuotaId::new(0), handle)?;
    }
    let waiting = blocks(&heap)?.into_iter().filter(|b| b.2 == QUARANTINED);
    assert_eq!(waiting.count(), 2 * HOLDS);
    assert_eq!(heap.sweep()?, 32 * HOLDS as u32);
    assert_eq!(blocks(&heap)?, [(0, HEAP_MAX, 0)]);
    assert_eq!(heap.remaining(QuotaId::new(0))?, 1_000_000);
    Ok(())
}

/// Takes up a heap with its accounts changed.
fn taken_up(bytes: &mut [u8], change: impl Fn(&mut Accounts)) -> Result<Kind, Refusal> {
    let mut heap = Heap::open_with(bytes, [100; QUOTAS], QUARANTINE)?;
    let handle = heap.allocate(QuotaId::new(0), 8)?;
    heap.release(QuotaId::new(0), handle)?;
    let (bytes, mut accounts) = heap.into_parts();
    change(&mut accounts);
    Heap::from_parts(bytes, &accounts).map(|heap| heap.kind())
}

#[test]
fn a_plain_heap_has_no_quarantined_block() {
    let mut memory = [0; 64];
    assert_eq!(taken_up(&mut memory, |_| {}), Ok(Kind::Quarantine));
    for kind in [0, 2, 3, 128, 255] {
        let refused = taken_up(&mut memory, |accounts| accounts.kind = kind);
        assert_eq!(refused, Err(Refusal::Inconsistent), "{kind}");
    }
}

#[test]
fn serials_end_below_that_of_quarantine() -> Result<(), Refusal> {
    for settings in [Options::default(), QUARANTINE] {
        let mut memory = [0; 64];
        let heap = Heap::open_with(&mut memory, [100; QUOTAS], settings)?;
        let (bytes, mut accounts) = heap.into_parts();
        accounts.last_serial = SERIAL_MAX - 1;
        let mut heap = Heap::from_parts(bytes, &accounts)?;
        assert_eq!(heap.allocate(QuotaId::new(0), 8)?.serial, 4_294_967_294);
        assert_eq!(
            heap.allocate(QuotaId::new(0), 8),
            Err(Refusal::SerialsExhausted)
        );
        let (bytes, mut accounts) = heap.into_parts();
        accounts.last_serial = u32::MAX;
        let refused = Heap::from_parts(bytes, &accounts).map(drop);
        assert_eq!(refused, Err(Refusal::Inconsistent));
    }
    Ok(())
}

#[test]
fn kinds_and_their_numbers() {
    for number in 0..=255 {
        match Kind::from_number(number) {
            Some(kind) => assert_eq!(kind.number(), number),
            None => assert!(number > 1),
        }
    }
    assert_eq!(Options::default().kind, Kind::Plain);
}
