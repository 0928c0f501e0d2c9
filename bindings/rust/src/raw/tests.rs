//! Every field of the accounts goes through the library and back, as Rust sets it.

use super::*;
use crate::layout::{Accounts, Hold, Quota, QuotaId, HOLDS, QUOTAS};

const INCONSISTENT: u32 = 2;

/// Accounts in which no two fields of four bytes are the same, nor two of one byte near each other;
/// no heap agrees with them.
fn distinct() -> Accounts {
    let mark = |n: usize| (n as u32 + 1).wrapping_mul(0x9E37_79B1);
    Accounts {
        quotas: core::array::from_fn(|i| Quota {
            grant: mark(2 * i),
            remainder: mark(2 * i + 1),
            permissions: 200 + i as u8,
        }),
        last_serial: mark(2 * QUOTAS),
        holds: core::array::from_fn(|i| Hold {
            serial: mark(2 * QUOTAS + 1 + i),
            quota: (2 * i) as u8,
            count: (2 * i + 1) as u8,
        }),
        kind: 171,
        edition: 92,
    }
}

/// The bits of a word that are padding, by its place.
fn padding(place: usize) -> u32 {
    const LAST: usize = 3 * QUOTAS;
    match place {
        0..LAST if place % 3 == 2 => 0xFFFF_FF00,
        0..=LAST => 0,
        _ if (place - LAST).is_multiple_of(2) => 0xFFFF_0000,
        _ if place == LAST + 1 + 2 * HOLDS => 0xFFFF_0000,
        _ => 0,
    }
}

/// The words of the accounts, with marks in all padding.
fn marked(accounts: &Accounts) -> Words {
    let mut words = Words::from(accounts);
    for (place, word) in words.0.iter_mut().enumerate() {
        assert_eq!(*word & padding(place), 0, "word {place}");
        *word |= 0xA5C3_965A & padding(place);
    }
    words
}

#[test]
fn every_field_lies_where_the_accounts_have_it() {
    assert_eq!(*Words::from(&distinct()).accounts(), distinct());
    assert_eq!(*marked(&distinct()).accounts(), distinct());
    let spare: u32 = (0..Words::ZERO.0.len())
        .map(|place| padding(place).count_ones() / 8)
        .sum();
    assert_eq!(spare as usize, 3 * QUOTAS + 2 * HOLDS + 2);
}

#[test]
fn each_call_leaves_every_word_that_it_refuses() {
    let mut heap = [0; 64];
    assert_eq!(distinct().holds[HOLDS - 1].count, 255);
    let mut words = marked(&distinct());
    let before = words.0;
    let handle = Handle {
        base: 8,
        length: 16,
        serial: 1,
    };
    let handles = [
        allocate(&mut heap, &mut words, 0, 8),
        allocate_array(&mut heap, &mut words, 0, 2, 4),
        reallocate(&mut heap, &mut words, 0, handle, 8),
    ];
    for reply in handles {
        let Handle {
            base,
            length,
            serial,
        } = reply.handle;
        let numbers = [reply.refusal, base, length, serial];
        assert_eq!(numbers, [INCONSISTENT, 0, 0, 0]);
    }
    let amounts = [
        claim(&heap, &mut words, 0, handle),
        release(&mut heap, &mut words, 0, handle),
        free_all(&mut heap, &mut words, 0),
        clear_permissions(&heap, &mut words, 0, 7),
        sweep(&mut heap, &words),
        remaining(&heap, &words, 0),
    ];
    for reply in amounts {
        assert_eq!((reply.refusal, reply.amount), (INCONSISTENT, 0));
    }
    assert_eq!(words.0, before);
}

#[test]
fn each_call_leaves_padding_as_it_is() {
    let mut heap = [7; 128];
    let mut words = marked(&distinct());
    assert_eq!(
        open(
            &mut heap,
            &mut words,
            Grants {
                values: [100; QUOTAS]
            },
            1,
            1
        ),
        0
    );
    let mut words = marked(words.accounts());
    let made = allocate(&mut heap, &mut words, 0, 8);
    let moved = reallocate(&mut heap, &mut words, 0, made.handle, 16);
    let more = allocate_array(&mut heap, &mut words, 31, 2, 4);
    assert_eq!([made.refusal, moved.refusal, more.refusal], [0; 3]);
    let amounts = [
        claim(&heap, &mut words, 31, moved.handle),
        release(&mut heap, &mut words, 0, moved.handle),
        clear_permissions(&heap, &mut words, 30, 5),
        free_all(&mut heap, &mut words, 31),
        sweep(&mut heap, &words),
    ];
    let amounts = amounts.map(|reply| (reply.refusal, reply.amount));
    assert_eq!(amounts, [(0, 16), (0, 24), (0, 2), (0, 40), (0, 56)]);
    let accounts = words.accounts().clone();
    assert_eq!(
        (accounts.last_serial, accounts.quotas[30].permissions),
        (3, 2)
    );
    assert_eq!(words.0, marked(&accounts).0);
}

/// A handle whose three fields are distinct numbers.
fn marked_handle(n: usize) -> Handle {
    let mark = |n: usize| n as u32 * 0x0101_0101;
    Handle {
        base: mark(n),
        length: mark(n + 1),
        serial: mark(n + 2),
    }
}

/// A queue with this count whose other fields are distinct numbers.
fn marked_queue(count: u32) -> Queue {
    Queue {
        sender: QuotaId::new(0x0101_0101),
        receiver: QuotaId::new(0x0202_0202),
        count,
        handles: core::array::from_fn(|i| marked_handle(3 * i + 3)),
    }
}

#[test]
fn a_send_leaves_every_field_that_it_refuses() {
    let accounts = distinct();
    let mut words = marked(&accounts);
    for (count, refusal) in [(3, INCONSISTENT), (16, 51), (17, 53), (u32::MAX, 53)] {
        let mut queue = marked_queue(count);
        let handle = marked_handle(60);
        assert_eq!(
            queue_send(&mut [0; 64], &mut words, &mut queue, handle),
            refusal
        );
        assert_eq!(words.0, marked(&accounts).0);
        assert_eq!(queue, marked_queue(count));
    }
}

#[test]
fn a_receive_moves_every_field_or_leaves_it() {
    let none = Handle {
        base: 0,
        length: 0,
        serial: 0,
    };
    for (count, refusal) in [(0, 52), (17, 53), (u32::MAX, 53)] {
        let mut queue = marked_queue(count);
        let reply = queue_receive(&mut queue);
        assert_eq!((reply.refusal, reply.handle), (refusal, none));
        assert_eq!(queue, marked_queue(count));
    }
    let mut queue = marked_queue(16);
    let reply = queue_receive(&mut queue);
    assert_eq!((reply.refusal, reply.handle), (0, marked_handle(3)));
    let mut left = marked_queue(15);
    left.handles.rotate_left(1);
    left.handles[15] = none;
    assert_eq!(queue, left);
}

#[test]
fn each_grant_reaches_its_quota() {
    let values = core::array::from_fn(|i| (i as u32 + 1).wrapping_mul(0x9E37_79B1));
    let mut words = marked(&distinct());
    assert_eq!(open(&mut [7; 64], &mut words, Grants { values }, 0, 0), 0);
    let accounts = words.accounts();
    assert_eq!(accounts.quotas.map(|quota| quota.grant), values);
    assert_eq!(accounts.quotas.map(|quota| quota.remainder), values);
    assert_eq!(accounts.quotas.map(|quota| quota.permissions), [7; QUOTAS]);
    assert_eq!(accounts.last_serial, 0);
    assert_eq!(accounts.holds, [Hold::default(); HOLDS]);
}

/// Any number but 0 opens a heap with quarantine, or of the second edition, each by itself.
#[test]
fn each_kind_and_edition_reaches_the_accounts() {
    let grants = Grants {
        values: [1; QUOTAS],
    };
    let marks = |length: usize, kind, edition| {
        let mut words = marked(&distinct());
        let refusal = open(&mut [7; 64][..length], &mut words, grants, kind, edition);
        let Accounts { kind, edition, .. } = words.accounts();
        (refusal, *kind, *edition)
    };
    for (number, mark) in [(0, 0), (1, 1), (2, 1), (255, 1), (256, 1), (u32::MAX, 1)] {
        for other in [0, 1] {
            assert_eq!(marks(64, number, other), (0, mark, other as u8), "{number}");
            assert_eq!(marks(64, other, number), (0, other as u8, mark), "{number}");
            assert_eq!(marks(63, number, other), (1, 0, 0), "{number}");
            assert_eq!(marks(63, other, number), (1, 0, 0), "{number}");
        }
    }
}
