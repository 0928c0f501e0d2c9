//! Rules 5.1 to 5.8, 5.10, 5.12 and 15.2, judged one by one with plain loops.

use lokhazim_reference::{Block, Hold, MAX_HEAP, MIN_HEAP, QUOTAS};

use crate::judge::cut::{is_live, walk, Stated, GREATEST_SERIAL, QUARANTINED};
use crate::judge::ledger::unit;
use crate::state::State;

/// The rules, or pairs of them, in their order.
#[derive(Clone, Copy, Debug, PartialEq, Eq, PartialOrd, Ord)]
pub enum Sentence {
    /// 5.1 and 5.2: the heap is cut into blocks.
    Cut,
    /// 5.3 and 5.4: live serials differ, and none is above the last serial.
    Serials,
    /// 5.5: a used record is of a live object, with a quota that exists and a count.
    Records,
    /// 5.6: used records differ in serial or quota.
    Twice,
    /// 5.7: every object is held.
    Held,
    /// 5.8: a grant is the remainder and the charges.
    Sums,
    /// 5.10: base and length of every object are multiples of its unit.
    Units,
    /// 15.2: no quota has a permission that there is not.
    Permissions,
    /// 5.12: the kind is one that there is, and only the second has quarantined blocks.
    Kind,
    /// 5.12: the last serial is one that an object can have.
    LastSerial,
    /// 5.12: the edition is one that there is.
    Edition,
}

/// All of them.
pub const SENTENCES: [Sentence; 11] = [
    Sentence::Cut,
    Sentence::Serials,
    Sentence::Records,
    Sentence::Twice,
    Sentence::Held,
    Sentence::Sums,
    Sentence::Units,
    Sentence::Permissions,
    Sentence::Kind,
    Sentence::LastSerial,
    Sentence::Edition,
];

/// Gives the rules that a state of an allowed heap length breaks; units are judged by the state's own
/// edition, and not at all if there is no such edition. Where the sizes do not lead
/// to the heap's end, the others speak of nothing and only the first is given.
pub fn broken(state: &State) -> Vec<Sentence> {
    let walk = walk(&state.heap);
    if !walk.complete {
        return vec![Sentence::Cut];
    }
    let blocks: Vec<Block> = walk.blocks.iter().map(|stated| stated.block).collect();
    let mut live = blocks.clone();
    live.retain(|block| is_live(block.serial));
    let used = used_records(state);
    let holds = |sentence: &Sentence| match sentence {
        Sentence::Cut => is_cut(&walk.blocks),
        Sentence::Serials => serials_hold(&live, state.accounts.last_serial),
        Sentence::Records => used.iter().all(|hold| record_holds(&live, hold)),
        Sentence::Twice => no_record_twice(&used),
        Sentence::Held => live
            .iter()
            .all(|b| used.iter().any(|h| h.serial == b.serial)),
        Sentence::Sums => sums_hold(state, &live, &used),
        Sentence::Units => match state.accounts.edition {
            edition @ 0..=1 => live.iter().all(|block| fits_its_unit(edition, block)),
            _ => true,
        },
        Sentence::Permissions => state.accounts.quotas.iter().all(|q| q.permissions <= 7),
        Sentence::Kind => match state.accounts.kind {
            0 => blocks.iter().all(|block| block.serial != QUARANTINED),
            kind => kind == 1,
        },
        Sentence::LastSerial => state.accounts.last_serial <= GREATEST_SERIAL,
        Sentence::Edition => state.accounts.edition <= 1,
    };
    let broken = SENTENCES.into_iter().filter(|sentence| !holds(sentence));
    broken.collect()
}

/// Gives the refusal of the check, 1 or 2, or 0.
pub fn check_refusal(state: &State) -> u32 {
    let length = state.heap.len();
    match broken(state).as_slice() {
        _ if !length.is_multiple_of(8) || !(MIN_HEAP..=MAX_HEAP).contains(&length) => 1,
        [] => 0,
        _ => 2,
    }
}

/// Gives the used records: those that are not all zero.
fn used_records(state: &State) -> Vec<Hold> {
    let holds = state.accounts.holds.iter().copied();
    holds
        .filter(|h| h.serial != 0 || h.quota != 0 || h.count != 0)
        .collect()
}

/// Judges back sizes, least sizes and neighbours.
fn is_cut(blocks: &[Stated]) -> bool {
    let mut before = Block {
        offset: 0,
        size: 0,
        serial: 1,
    };
    for stated in blocks {
        let Stated { block, back_size } = *stated;
        let too_short = block.serial != 0 && block.size < 16;
        let two_free = block.serial == 0 && before.serial == 0;
        if back_size != before.size || too_short || two_free {
            return false;
        }
        before = block;
    }
    true
}

/// Judges the live serials.
fn serials_hold(live: &[Block], last_serial: u32) -> bool {
    live.iter().enumerate().all(|(place, block)| {
        let again = live[..place].iter().any(|b| b.serial == block.serial);
        !again && block.serial <= last_serial
    })
}

/// Judges one used record.
fn record_holds(live: &[Block], hold: &Hold) -> bool {
    let names_live = live.iter().any(|block| block.serial == hold.serial);
    names_live && usize::from(hold.quota) < QUOTAS && hold.count >= 1
}

/// Judges whether no two used records agree in serial and quota.
fn no_record_twice(used: &[Hold]) -> bool {
    used.iter().enumerate().all(|(place, hold)| {
        let same = |h: &Hold| h.serial == hold.serial && h.quota == hold.quota;
        !used[..place].iter().any(same)
    })
}

/// Judges the sum of each quota.
fn sums_hold(state: &State, live: &[Block], used: &[Hold]) -> bool {
    let quotas = state.accounts.quotas.iter().enumerate();
    quotas.into_iter().all(|(number, quota)| {
        let its = used.iter().filter(|h| usize::from(h.quota) == number);
        let its: Vec<u32> = its.map(|h| h.serial).collect();
        let has = |block: &&Block| its.contains(&block.serial);
        let charges: u64 = live.iter().filter(has).map(|b| u64::from(b.size)).sum();
        u64::from(quota.grant) == u64::from(quota.remainder) + charges
    })
}

/// Judges base and length of one object in an edition.
fn fits_its_unit(edition: u8, block: &Block) -> bool {
    let (base, length) = (block.offset + 8, block.size - 8);
    let unit = unit(edition, length);
    base % unit == 0 && length % unit == 0
}
