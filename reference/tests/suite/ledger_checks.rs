//! What section 10 of the rules says of the ledger, each rule checked against heap and accounts.

use std::collections::BTreeMap;

use lokhazim_reference::{check, Block, Handle};

use crate::ledger::Ledger;
use crate::naive;
use crate::state::{header, put, Answer, Call, State};

/// The bytes of each live object, by serial, as the caller last saw them.
pub type Contents = BTreeMap<u32, Vec<u8>>;

/// Checks every rule that concerns the state after a call.
pub fn check_all(state: &State, ledger: &Ledger, contents: &Contents) {
    heap_and_accounts_are_sound(state);
    live_objects_are_the_ledgers(state, ledger);
    quarantined_blocks_are_the_ledgers(state, ledger);
    used_records_are_the_holds(state, ledger);
    grants_are_the_grants(state, ledger);
    remainders_are_grants_less_charges(state, ledger);
    permissions_are_those_not_cleared(state, ledger);
    bytes_belong_to_one_object_or_header(state, ledger);
    contents_are_unchanged(state, ledger, contents);
}

/// Gives the blocks of a heap by a walk of the tests' own.
fn blocks(state: &State) -> Vec<Block> {
    naive::blocks(&state.heap).expect("the heap is cut into blocks")
}

/// Rule 10.10: the state is consistent after each call, by both judgements of it.
fn heap_and_accounts_are_sound(state: &State) {
    assert!(naive::is_sound(&state.heap, &state.accounts));
    assert_eq!(check(&state.heap, &state.accounts), Ok(()));
}

/// Rule 10.4: live objects are the ledger's.
fn live_objects_are_the_ledgers(state: &State, ledger: &Ledger) {
    let live = blocks(state).into_iter().filter(|block| block.is_live());
    let mut in_heap: Vec<(u32, u32, u32)> = live
        .map(|block| (block.offset + 8, block.size - 8, block.serial))
        .collect();
    in_heap.sort_unstable();
    let objects = ledger.objects.iter().map(|object| object.handle);
    let mut in_ledger: Vec<(u32, u32, u32)> =
        objects.map(|h| (h.base, h.length, h.serial)).collect();
    in_ledger.sort_unstable();
    assert_eq!(in_heap, in_ledger);
}

/// Quarantined blocks are those of the objects that left since the last sweep.
fn quarantined_blocks_are_the_ledgers(state: &State, ledger: &Ledger) {
    let in_heap = blocks(state).into_iter().filter(|b| b.serial == u32::MAX);
    let mut in_ledger = ledger.quarantine.clone();
    in_ledger.sort_by_key(|block| block.offset);
    assert_eq!(in_heap.collect::<Vec<Block>>(), in_ledger);
}

/// Rule 10.7: used records are the ledger's holds.
fn used_records_are_the_holds(state: &State, ledger: &Ledger) {
    let used = state.accounts.holds.iter().filter(|hold| hold.is_used());
    let mut records: Vec<(u32, u8, u32)> = used
        .map(|hold| (hold.serial, hold.quota, u32::from(hold.count)))
        .collect();
    records.sort_unstable();
    assert_eq!(records, ledger.records());
}

/// Rule 10.8: the grants of the accounts are the ledger's.
fn grants_are_the_grants(state: &State, ledger: &Ledger) {
    assert_eq!(
        state.accounts.quotas.map(|quota| quota.grant),
        ledger.grants
    );
    assert_eq!(state.accounts.last_serial, ledger.last_serial);
}

/// Rule 10.8: a remainder, and what remaining answers, is the grant less the charges.
fn remainders_are_grants_less_charges(state: &State, ledger: &Ledger) {
    for (number, quota) in state.accounts.quotas.iter().enumerate() {
        assert_eq!(i128::from(quota.remainder), ledger.remainder(number));
        assert_eq!(state.remainder(number as u32), quota.remainder);
    }
}

/// The permissions of the accounts are those that no call has cleared.
fn permissions_are_those_not_cleared(state: &State, ledger: &Ledger) {
    for (quota, left) in state.accounts.quotas.iter().zip(ledger.permissions) {
        let bits = left.map(u8::from);
        assert_eq!(quota.permissions, bits[0] + 2 * bits[1] + 4 * bits[2]);
    }
}

/// Rule 10.6: no byte belongs to two objects or to an object and a header, and all
/// lie in the heap.
fn bytes_belong_to_one_object_or_header(state: &State, ledger: &Ledger) {
    let mut owners = vec![0; state.heap.len()];
    let headers = blocks(state).into_iter().map(|block| (block.offset, 8));
    let objects = ledger.objects.iter().map(|object| object.handle);
    let objects = objects.map(|handle| (handle.base, handle.length));
    for (start, length) in headers.chain(objects) {
        let end = start as usize + length as usize;
        assert!(end <= owners.len(), "outside the heap");
        for owner in &mut owners[start as usize..end] {
            *owner += 1;
        }
    }
    assert!(owners.iter().all(|owner| *owner <= 1), "an overlap");
}

/// Rule 10.12: each object's bytes are those that the caller last saw.
fn contents_are_unchanged(state: &State, ledger: &Ledger, contents: &Contents) {
    assert_eq!(contents.len(), ledger.objects.len());
    for object in &ledger.objects {
        let bytes = &state.heap[object.handle.base as usize..object.end() as usize];
        assert!(contents[&object.handle.serial] == bytes, "contents changed");
    }
}

/// Rule 10.5: an object that the ledger keeps keeps its base and length.
pub fn kept_objects_keep_their_place(before: &Ledger, after: &Ledger) {
    for object in &after.objects {
        let serial = object.handle.serial;
        let mut earlier = before.objects.iter().map(|object| object.handle);
        if let Some(earlier) = earlier.find(|handle| handle.serial == serial) {
            assert_eq!(earlier, object.handle);
        }
    }
}

/// A request that passes every other check is refused with 11 exactly if there
/// is no suitable run.
pub fn space_is_refused_exactly_without_a_run(
    before: &Ledger,
    call: Call,
    answer: &Result<Answer, u8>,
) {
    let request = match call {
        Call::Allocate(_, n) | Call::Reallocate(_, _, n) => u64::from(n),
        Call::Array(_, n, s) => u64::from(n) * u64::from(s),
        _ => return,
    };
    let has_run = || {
        let length = before.object_length(request);
        length
            .and_then(|length| before.lowest_run(length))
            .is_some()
    };
    match answer {
        Ok(_) => assert!(has_run()),
        Err(11) => assert!(!has_run()),
        Err(_) => {}
    }
}

/// Keeps the caller's view of the objects up to date after an accepted call.
pub fn follow_contents(contents: &mut Contents, after: &Ledger, call: Call, answer: &Answer) {
    if let Answer::Object(new) = answer {
        let mut bytes = vec![0; new.length as usize];
        if let Call::Reallocate(_, old, _) = call {
            let length = old.length.min(new.length) as usize;
            bytes[..length].copy_from_slice(&contents[&old.serial][..length]);
        }
        contents.insert(new.serial, bytes);
    }
    let lives = |serial: u32| after.objects.iter().any(|o| o.handle.serial == serial);
    contents.retain(|serial, _| lives(*serial));
}

/// Gives every byte that the heap must have after an accepted call.
pub fn expected_bytes(
    heap: &[u8],
    before: &Ledger,
    after: &Ledger,
    call: Call,
    answer: &Answer,
) -> Vec<u8> {
    let mut bytes = heap.to_vec();
    clear_changed_objects(&mut bytes, before, after);
    clear_changed_objects(&mut bytes, after, before);
    let blocks = after.blocks();
    for gone in before.blocks() {
        if blocks.iter().all(|block| block.offset != gone.offset) {
            put(&mut bytes, gone.offset, [0; 8]);
        }
    }
    if let (Call::Reallocate(_, old, _), Answer::Object(new)) = (call, answer) {
        copy(heap, old, &mut bytes, *new);
    }
    let mut back_size = 0;
    for block in blocks {
        put(
            &mut bytes,
            block.offset,
            header(block.size, back_size, block.serial),
        );
        back_size = block.size;
    }
    bytes
}

/// Clears the objects of the first ledger that the second does not have.
fn clear_changed_objects(bytes: &mut [u8], first: &Ledger, second: &Ledger) {
    for object in &first.objects {
        if second.named(object.handle).is_none() {
            bytes[object.handle.base as usize..object.end() as usize].fill(0);
        }
    }
}

/// Copies the shorter of two objects' lengths from one heap to another.
fn copy(from: &[u8], old: Handle, to: &mut [u8], new: Handle) {
    for i in 0..old.length.min(new.length) {
        to[(new.base + i) as usize] = from[(old.base + i) as usize];
    }
}
