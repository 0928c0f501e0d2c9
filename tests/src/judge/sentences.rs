//! What section 10 of the rules and rules 22.11 and 23.1 say of the ledger, each rule checked after a
//! call of an undamaged history.

use std::ops::Range;

use lokhazim_reference::{Handle, QUOTAS};

use crate::judge::cut::{blocks, live_handles, quarantined};
use crate::judge::ledger::{request, Ledger, Object};
use crate::judge::rules::broken;
use crate::state::{Answer, Call, State};

/// A call of a history: the ledger, heap and accounts before it and after it.
pub struct Step<'a> {
    /// The call.
    pub call: Call,
    /// What it answered.
    pub answer: &'a Answer,
    /// The ledger before the call.
    pub ledger_before: &'a Ledger,
    /// The ledger after the call.
    pub ledger: &'a Ledger,
    /// Heap and accounts before the call.
    pub before: &'a State,
    /// Heap and accounts after the call.
    pub after: &'a State,
}

/// Gives what is wrong with a call and the state that it left; nothing if every rule holds.
pub fn wrong(step: &Step) -> Vec<String> {
    let checks: [(&str, bool); 17] = [
        ("heap and accounts are sound", broken(step.after).is_empty()),
        (
            "live objects are the ledger's",
            objects_are_the_ledgers(step),
        ),
        (
            "used records are the ledger's holds",
            records_are_the_holds(step),
        ),
        (
            "quarantined blocks are the ledger's",
            quarantine_is_the_ledgers(step),
        ),
        ("the kind is that of the opening", kind_holds(step)),
        ("the edition is that of the opening", edition_holds(step)),
        ("grants are the ledger's", grants_are_the_ledgers(step)),
        ("remainders are grants less charges", remainders_hold(step)),
        ("permissions are those not cleared", permissions_hold(step)),
        ("no permission comes back", no_permission_comes_back(step)),
        (
            "no object shares a byte with another or a header",
            bytes_have_one_owner(step),
        ),
        ("objects stay at their place", objects_stay(step)),
        (
            "refusals are given as the table says",
            refusal_is_the_tables(step),
        ),
        (
            "space is refused exactly without a suitable run",
            space_holds(step),
        ),
        ("answers follow from the ledger", answer_holds(step)),
        (
            "objects keep their bytes, new ones are zero or copied",
            contents_hold(step),
        ),
        (
            "quarantined blocks keep their bytes, new ones are cleared",
            quarantined_bytes_hold(step),
        ),
    ];
    let broken = checks.into_iter().filter(|(_, holds)| !holds);
    broken.map(|(name, _)| format!("broken: {name}")).collect()
}

/// Gives the handles of a ledger's objects in order of their bases.
fn ledger_handles(ledger: &Ledger) -> Vec<Handle> {
    let mut handles: Vec<Handle> = ledger.objects.iter().map(|o| o.handle).collect();
    handles.sort_unstable_by_key(|handle| handle.base);
    handles
}

/// Rule 10.4: live objects and the ledger's objects are the same.
fn objects_are_the_ledgers(step: &Step) -> bool {
    live_handles(&step.after.heap) == ledger_handles(step.ledger)
}

/// Rule 10.7: used records and the ledger's holds are the same.
fn records_are_the_holds(step: &Step) -> bool {
    let used = step.after.accounts.holds.iter().filter(|h| h.is_used());
    let mut records: Vec<(u32, usize, u32)> = used
        .map(|h| (h.serial, usize::from(h.quota), u32::from(h.count)))
        .collect();
    records.sort_unstable();
    records == step.ledger.records()
}

/// Gives the places of a ledger's quarantined blocks in order.
fn ledger_quarantine(ledger: &Ledger) -> Vec<Range<usize>> {
    let mut places = ledger.quarantined.clone();
    places.sort_unstable_by_key(|block| block.start);
    places
}

/// Rule 22.11: quarantined blocks and the ledger's are the same.
fn quarantine_is_the_ledgers(step: &Step) -> bool {
    quarantined(&step.after.heap) == ledger_quarantine(step.ledger)
}

/// Rules 22.1 and 22.2: the kind is that of the opening.
fn kind_holds(step: &Step) -> bool {
    step.after.accounts.kind == u8::from(step.ledger.quarantines)
}

/// Rules 23.1 and 23.2: the edition is that of the opening.
fn edition_holds(step: &Step) -> bool {
    step.after.accounts.edition == step.ledger.edition
}

/// Rule 10.8: the accounts' grants are the ledger's, and the last serial is the last one answered.
fn grants_are_the_ledgers(step: &Step) -> bool {
    let accounts = &step.after.accounts;
    let grants = accounts.quotas.map(|quota| quota.grant);
    grants == step.ledger.grants && accounts.last_serial == step.ledger.last_serial
}

/// Rule 10.8: a remainder is the grant less the charges, in whole numbers.
fn remainders_hold(step: &Step) -> bool {
    let quotas = &step.after.accounts.quotas;
    let remainders = quotas.map(|quota| i64::from(quota.remainder));
    (0..QUOTAS).all(|number| remainders[number] == step.ledger.remainder(number))
}

/// Rules 15.3 and 15.4: a quota's permissions are those that no clearing call has named since the opening.
fn permissions_hold(step: &Step) -> bool {
    let quotas = &step.after.accounts.quotas;
    quotas.map(|quota| quota.permissions) == step.ledger.permissions
}

/// Rule 15.7: no call but an opening sets a permission, and none but the clearing one clears one.
fn no_permission_comes_back(step: &Step) -> bool {
    let opens = matches!(step.call, Call::Open(..)) && step.answer.is_accepted();
    let mut quotas = step.before.accounts.quotas.iter();
    let mut quotas = quotas.by_ref().zip(&step.after.accounts.quotas).enumerate();
    quotas.all(|(number, (before, after))| {
        let (before, after) = (before.permissions, after.permissions);
        let clears = matches!(step.call, Call::ClearPermissions(q, _) if q as usize == number);
        opens || before == after || clears && before & after == after
    })
}

/// Rules 10.6 and 22.11: every object, and what stands behind the header of every quarantined block,
/// lies in the heap and shares no byte with another or with a header.
fn bytes_have_one_owner(step: &Step) -> bool {
    let mut owners = vec![0_u32; step.after.heap.len()];
    let headers = blocks(&step.after.heap).into_iter();
    let headers = headers.map(|block| (block.offset as usize, 8));
    let objects = step.ledger.objects.iter().map(|object| object.handle);
    let objects = objects.map(|h| (h.base as usize, h.length as usize));
    let waiting = step.ledger.quarantined.iter();
    let waiting = waiting.map(|block| (block.start + 8, block.len() - 8));
    for (start, length) in headers.chain(objects).chain(waiting) {
        match owners.get_mut(start..start + length) {
            Some(bytes) => bytes.iter_mut().for_each(|owner| *owner += 1),
            None => return false,
        }
    }
    owners.iter().all(|owner| *owner <= 1)
}

/// Rule 10.5: an object that the ledger had before and still has is at the same base with the
/// same length.
fn objects_stay(step: &Step) -> bool {
    if matches!(step.call, Call::Open(..)) {
        return true;
    }
    let old = &step.ledger_before.objects;
    old.iter().all(|object| {
        let serial = object.handle.serial;
        let mut now = step.ledger.objects.iter().map(|o| o.handle);
        now.find(|handle| handle.serial == serial)
            .is_none_or(|handle| handle == object.handle)
    })
}

/// Rule 7.2: the first line that holds refuses a call; only line 11 is left to rule 10.9.
fn refusal_is_the_tables(step: &Step) -> bool {
    match step.ledger_before.refusal_before_space(step.call) {
        0 => matches!(step.answer.refusal, 0 | 11),
        number => step.answer.refusal == number,
    }
}

/// Rule 10.9: a request that no other line refuses is refused by 11 exactly if it has no base,
/// and else gets the lowest (rule 8.6).
fn space_holds(step: &Step) -> bool {
    let bytes = match step.call {
        Call::Allocate(_, n) | Call::Reallocate(_, _, n) => u64::from(n),
        Call::Array(_, n, s) => u64::from(n) * u64::from(s),
        _ => return step.answer.refusal != 11,
    };
    if step.ledger_before.refusal_before_space(step.call) != 0 {
        return true;
    }
    let Some(request) = request(step.ledger_before.edition, bytes) else {
        return false;
    };
    match step.ledger_before.lowest_run(request) {
        None => step.answer.refusal == 11,
        Some(base) => {
            let wanted = Handle {
                base,
                length: request.length,
                serial: step.ledger_before.last_serial + 1,
            };
            step.answer.is_accepted() && step.answer.handle() == wanted
        }
    }
}

/// The numbers that a call on holds answers follow from the ledger.
fn answer_holds(step: &Step) -> bool {
    if !step.answer.is_accepted() {
        return step.answer.numbers == [0; 4];
    }
    let given_back = |quota: u32| {
        let number = quota as usize;
        step.ledger.remainder(number) - step.ledger_before.remainder(number)
    };
    let first = step.answer.numbers[0] as i64;
    match step.call {
        Call::Claim(_, h) => {
            let object = step.ledger_before.named(h);
            object.is_some_and(|object| first == i64::from(object.handle.length))
        }
        Call::Release(q, _) | Call::FreeAll(q) => first == given_back(q),
        Call::Remaining(q) => first == step.ledger.remainder(q as usize),
        Call::ClearPermissions(q, _) => first == i64::from(step.ledger.permissions[q as usize]),
        Call::Sweep => step.answer.numbers[0] == step.ledger_before.waiting(),
        Call::Lend(h) => {
            let end = u64::from(h.base) + u64::from(h.length);
            step.answer.numbers == [u64::from(h.base), end, 0, 0]
        }
        _ => true,
    }
}

/// Gives an object's bytes in a heap.
fn bytes_of(heap: &[u8], handle: Handle) -> &[u8] {
    let start = handle.base as usize;
    heap.get(start..start + handle.length as usize)
        .unwrap_or_default()
}

/// Tells whether a handle named the object with this whole handle before the call.
fn names(step: &Step, handle: Handle, whole: Handle) -> bool {
    let named = step.ledger_before.named(handle);
    named.is_some_and(|object| object.handle == whole)
}

/// Gives the bytes that an object has to have after the call. A write is at a place of the handle's
/// range (rules 4.9 and 8.36).
fn wanted_bytes(step: &Step, object: &Object) -> Vec<u8> {
    let handle = object.handle;
    let stayed = step.ledger_before.whole(handle).is_some();
    let mut bytes = match stayed {
        true => bytes_of(&step.before.heap, handle).to_vec(),
        false => vec![0; handle.length as usize],
    };
    match step.call {
        Call::Reallocate(_, old, _) if !stayed => {
            let old = bytes_of(&step.before.heap, old);
            let shorter = old.len().min(bytes.len());
            bytes[..shorter].copy_from_slice(&old[..shorter]);
        }
        Call::Write(h, at, byte) if at < h.length && names(step, h, handle) => {
            bytes[(h.base - handle.base + at) as usize] = byte;
        }
        _ => {}
    }
    bytes
}

/// Rule 10.12: an object that stays keeps its bytes but for a write to it; a new one is all zero, or has the
/// old one's bytes and then zeros.
fn contents_hold(step: &Step) -> bool {
    step.ledger
        .objects
        .iter()
        .all(|object| bytes_of(&step.after.heap, object.handle) == wanted_bytes(step, object))
}

/// Rule 22.3: what stands behind the header of a block that comes into quarantine is zero, and stays
/// as it was while the block waits.
fn quarantined_bytes_hold(step: &Step) -> bool {
    let old = &step.ledger_before.quarantined;
    step.ledger.quarantined.iter().all(|block| {
        let body = block.start + 8..block.end;
        match (old.contains(block), step.after.heap.get(body.clone())) {
            (_, None) => false,
            (true, Some(bytes)) => step.before.heap.get(body) == Some(bytes),
            (false, Some(bytes)) => bytes.iter().all(|byte| *byte == 0),
        }
    })
}
