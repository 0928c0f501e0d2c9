//! The heap through the crate's own types.

use lokhazim::{
    grants, Accounts, Block, Handle, Heap, Permissions, QuotaId, Refusal, HEAP_MAX, HOLDS, QUOTAS,
};

/// The lengths and counts of the objects of `fill`, by the place of their record.
fn length_of(place: usize) -> u32 {
    8 + 8 * (place as u32 % 8)
}

fn count_of(place: usize) -> u32 {
    1 + place as u32 % 5
}

fn quota_of(place: usize) -> u32 {
    (place % QUOTAS) as u32
}

/// A heap in which every record is used.
fn fill(bytes: &mut [u8]) -> Result<(Heap<'_>, Vec<Handle>), Refusal> {
    let mut heap = Heap::open(bytes, core::array::from_fn(|i| 100_000 + 1_000 * i as u32))?;
    let mut handles = Vec::new();
    for place in 0..HOLDS {
        let handle = heap.allocate(QuotaId::new(quota_of(place)), length_of(place))?;
        for _ in 1..count_of(place) {
            assert_eq!(
                heap.claim(QuotaId::new(quota_of(place)), handle)?,
                length_of(place)
            );
        }
        handles.push(handle);
    }
    Ok((heap, handles))
}

/// The run M (rule 12.1): 128 bytes, grants 100 and 1,000.
#[test]
fn the_marked_run() -> Result<(), Refusal> {
    let mut memory = [255; 128];
    let mut heap = Heap::open(&mut memory, grants([100, 1_000]))?;
    let first = Handle {
        base: 8,
        length: 16,
        serial: 1,
    };
    let second = Handle {
        base: 32,
        length: 96,
        serial: 2,
    };
    let third = Handle {
        base: 8,
        length: 16,
        serial: 3,
    };
    assert_eq!(
        (
            heap.allocate(QuotaId::new(0), 10)?,
            heap.remaining(QuotaId::new(0))?
        ),
        (first, 76)
    );
    assert_eq!(
        heap.allocate(QuotaId::new(0), 68),
        Err(Refusal::QuotaExceeded)
    );
    assert_eq!(
        (
            heap.claim(QuotaId::new(1), first)?,
            heap.remaining(QuotaId::new(1))?
        ),
        (16, 976)
    );
    assert_eq!(
        (
            heap.release(QuotaId::new(0), first)?,
            heap.remaining(QuotaId::new(0))?
        ),
        (24, 100)
    );
    assert_eq!(
        (
            heap.allocate(QuotaId::new(1), 96)?,
            heap.remaining(QuotaId::new(1))?
        ),
        (second, 872)
    );
    assert_eq!(heap.allocate(QuotaId::new(1), 1), Err(Refusal::NoSpace));
    assert_eq!(
        (
            heap.release(QuotaId::new(1), first)?,
            heap.remaining(QuotaId::new(1))?
        ),
        (24, 896)
    );
    assert_eq!(heap.allocate(QuotaId::new(0), 24), Err(Refusal::NoSpace));
    assert_eq!(heap.allocate(QuotaId::new(0), 16)?, third);
    assert_eq!(
        heap.release(QuotaId::new(0), first),
        Err(Refusal::NoSuchObject)
    );
    assert_eq!(heap.release(QuotaId::new(0), second), Err(Refusal::NotHeld));
    assert_eq!(
        (
            heap.free_all(QuotaId::new(1))?,
            heap.remaining(QuotaId::new(1))?
        ),
        (104, 1_000)
    );
    Ok(())
}

#[test]
fn the_calls_leave_each_field_as_it_should_be() -> Result<(), Refusal> {
    let mut memory = [0; HEAP_MAX];
    let (heap, _) = fill(&mut memory)?;
    let mut spent = [0; QUOTAS];
    for (place, hold) in heap.accounts().holds.iter().enumerate() {
        assert_eq!(hold.serial, place as u32 + 1);
        assert_eq!(u32::from(hold.quota), quota_of(place));
        assert_eq!(u32::from(hold.count), count_of(place));
        spent[place % QUOTAS] += length_of(place) + 8;
    }
    for (number, quota) in heap.accounts().quotas.iter().enumerate() {
        assert_eq!(quota.grant, 100_000 + 1_000 * number as u32);
        assert_eq!(quota.remainder, quota.grant - spent[number]);
        assert_eq!(
            heap.remaining(QuotaId::new(number as u32))?,
            quota.remainder
        );
        assert_eq!(
            Permissions::from_bits(quota.permissions),
            Some(Permissions::ALL)
        );
    }
    assert_eq!(heap.accounts().last_serial, HOLDS as u32);
    assert_eq!((heap.accounts().kind, heap.accounts().edition), (0, 0));
    Ok(())
}

/// Takes the heap up with one field changed, which has to be refused, and then as it was.
fn is_noticed(bytes: &mut [u8], accounts: &Accounts, change: impl Fn(&mut Accounts)) {
    let mut changed = accounts.clone();
    change(&mut changed);
    let refused = Heap::from_parts(bytes, &changed).map(|_| ());
    assert_eq!(refused, Err(Refusal::Inconsistent));
    assert!(Heap::from_parts(bytes, accounts).is_ok());
}

#[test]
fn the_library_notices_a_change_of_any_field() -> Result<(), Refusal> {
    let mut memory = [0; HEAP_MAX];
    let (heap, _) = fill(&mut memory)?;
    let (bytes, accounts) = heap.into_parts();
    for number in 0..QUOTAS {
        is_noticed(bytes, &accounts, |a| a.quotas[number].grant += 1);
        is_noticed(bytes, &accounts, |a| a.quotas[number].remainder += 1);
        is_noticed(bytes, &accounts, |a| a.quotas[number].permissions = 8);
    }
    is_noticed(bytes, &accounts, |a| a.last_serial -= 1);
    is_noticed(bytes, &accounts, |a| a.last_serial = u32::MAX);
    is_noticed(bytes, &accounts, |a| a.kind = 2);
    is_noticed(bytes, &accounts, |a| a.edition = 2);
    for place in 0..HOLDS {
        is_noticed(bytes, &accounts, |a| a.holds[place].serial += HOLDS as u32);
        is_noticed(bytes, &accounts, |a| a.holds[place].quota = QUOTAS as u8);
        is_noticed(bytes, &accounts, |a| a.holds[place].count = 0);
    }
    Ok(())
}

/// An object of 8,192 bytes at base 8, where a version that went by the request put one for 8,191.
#[test]
fn a_heap_with_an_object_at_an_unaligned_base_is_refused() -> Result<(), Refusal> {
    let mut memory = [0; 16_384];
    let mut heap = Heap::open(&mut memory, [10_000; QUOTAS])?;
    assert_eq!(heap.allocate(QuotaId::new(0), 8_184)?.base, 8);
    let (bytes, mut accounts) = heap.into_parts();
    // The object takes 8 bytes from the free block behind it.
    bytes[0..2].copy_from_slice(&1_025_u16.to_le_bytes());
    bytes[8_192..8_200].fill(0);
    bytes[8_200..8_202].copy_from_slice(&1_023_u16.to_le_bytes());
    bytes[8_202..8_204].copy_from_slice(&1_025_u16.to_le_bytes());
    accounts.quotas[0].remainder -= 8;
    let refused = Heap::from_parts(bytes, &accounts).map(|_| ());
    assert_eq!(refused, Err(Refusal::Inconsistent));
    let mut heap = Heap::open(bytes, [10_000; QUOTAS])?;
    assert_eq!(heap.allocate(QuotaId::new(0), 8_191)?.base, 16);
    heap.check()
}

#[test]
fn the_library_notices_a_change_of_any_field_of_a_handle() -> Result<(), Refusal> {
    let mut memory = [0; HEAP_MAX];
    let (heap, handles) = fill(&mut memory)?;
    for handle in handles {
        assert_eq!(heap.lend(handle)?.len(), handle.length as usize);
        let Handle {
            base,
            length,
            serial,
        } = handle;
        for wrong in [
            Handle {
                base: base + 8,
                ..handle
            },
            Handle {
                length: length + 8,
                ..handle
            },
            Handle {
                serial: serial + 1,
                ..handle
            },
        ] {
            assert_eq!(heap.lend(wrong), Err(Refusal::NoSuchObject));
        }
    }
    Ok(())
}

#[test]
fn the_listing_gives_every_block() -> Result<(), Refusal> {
    let mut memory = [0; HEAP_MAX];
    let (heap, handles) = fill(&mut memory)?;
    let blocks: Vec<Block> = heap.blocks().collect::<Result<_, _>>()?;
    assert_eq!(blocks.len(), HOLDS + 1);
    for (block, handle) in blocks.iter().zip(handles) {
        assert_eq!(block.offset + 8, handle.base as usize);
        assert_eq!(block.size, handle.length as usize + 8);
        assert_eq!(block.serial, handle.serial);
    }
    assert!(blocks[HOLDS].is_free());
    assert_eq!(blocks[HOLDS].offset + blocks[HOLDS].size, HEAP_MAX);
    Ok(())
}

/// A handle of the wrong kind, a quota that is not there, lengths of nothing and too much.
#[test]
fn refused_calls_change_nothing() -> Result<(), Refusal> {
    let mut memory = [0; HEAP_MAX];
    let (mut heap, handles) = fill(&mut memory)?;
    let before = heap.accounts().clone();
    assert_eq!(
        heap.allocate(QuotaId::new(QUOTAS as u32), 1),
        Err(Refusal::QuotaNumber)
    );
    assert_eq!(
        heap.allocate(QuotaId::new(0), 0),
        Err(Refusal::ObjectLength)
    );
    assert_eq!(
        heap.allocate(QuotaId::new(0), 32_761),
        Err(Refusal::ObjectLength)
    );
    assert_eq!(
        heap.allocate(QuotaId::new(0), 1),
        Err(Refusal::HoldsExhausted)
    );
    assert_eq!(
        heap.claim(QuotaId::new(1), handles[0]),
        Err(Refusal::HoldsExhausted)
    );
    assert_eq!(
        heap.reallocate(QuotaId::new(1), handles[0], 8),
        Err(Refusal::NotHeld)
    );
    assert_eq!(
        heap.can_release(QuotaId::new(1), handles[0]),
        Err(Refusal::NotHeld)
    );
    assert_eq!(
        heap.free_all(QuotaId::new(u32::MAX)),
        Err(Refusal::QuotaNumber)
    );
    assert_eq!(heap.accounts(), &before);
    assert_eq!(heap.check(), Ok(()));
    Ok(())
}

/// The calls that need a permission, and the permission that each needs.
type Guarded = (
    Permissions,
    fn(&mut Heap, u32, Handle) -> Result<(), Refusal>,
);

const GUARDED: [Guarded; 5] = [
    (Permissions::ALLOCATE, |heap, quota, _| {
        heap.allocate(QuotaId::new(quota), 8).map(drop)
    }),
    (Permissions::ALLOCATE, |heap, quota, _| {
        heap.allocate_array(QuotaId::new(quota), 2, 4).map(drop)
    }),
    (Permissions::ALLOCATE, |heap, quota, handle| {
        heap.reallocate(QuotaId::new(quota), handle, 8).map(drop)
    }),
    (Permissions::CLAIM, |heap, quota, handle| {
        heap.claim(QuotaId::new(quota), handle).map(drop)
    }),
    (Permissions::FREE_ALL, |heap, quota, _| {
        heap.free_all(QuotaId::new(quota)).map(drop)
    }),
];

#[test]
fn each_call_needs_its_own_permission() -> Result<(), Refusal> {
    for bits in 0..8 {
        let cleared = Permissions::from_bits(bits).expect("a number below 8");
        for (needed, call) in GUARDED {
            let mut memory = [0; 256];
            let mut heap = Heap::open(&mut memory, [100; QUOTAS])?;
            let handle = heap.allocate(QuotaId::new(3), 8)?;
            heap.claim(QuotaId::new(2), handle)?;
            let left = heap.clear_permissions(QuotaId::new(3), cleared)?;
            assert_eq!(left.bits(), 7 - bits);
            assert_eq!(
                (
                    heap.permissions(QuotaId::new(3))?,
                    heap.permissions(QuotaId::new(2))?
                ),
                (left, Permissions::ALL)
            );
            let expected = match left.contains(needed) {
                true => Ok(()),
                false => Err(Refusal::NotPermitted),
            };
            assert_eq!(call(&mut heap, 3, handle), expected, "{cleared:?}");
            assert_eq!(call(&mut heap, 2, handle), Ok(()), "{cleared:?}");
        }
    }
    Ok(())
}

#[test]
fn permissions_are_shown_by_their_names() {
    let names = [
        "NONE",
        "ALLOCATE",
        "CLAIM",
        "ALLOCATE | CLAIM",
        "FREE_ALL",
        "ALLOCATE | FREE_ALL",
        "CLAIM | FREE_ALL",
        "ALLOCATE | CLAIM | FREE_ALL",
    ];
    for (bits, name) in (0..).zip(names) {
        let permissions = Permissions::from_bits(bits).expect("a number below 8");
        assert_eq!(
            (format!("{permissions:?}"), permissions.bits()),
            (name.to_owned(), bits)
        );
    }
    assert!((8..=255).all(|bits| Permissions::from_bits(bits).is_none()));
}
