//! The heap walked and its soundness judged a second time, by plain loops.

use lokhazim_reference::{Accounts, Block, Edition, QUOTAS};

use crate::state::unit_in;

/// Reads so many bytes from an offset as a little-endian number.
fn number(heap: &[u8], offset: usize, bytes: usize) -> u32 {
    (0..bytes)
        .rev()
        .fold(0, |value, i| value * 256 + u32::from(heap[offset + i]))
}

/// Walks the heap and gives its blocks, or none if it is not cut as it must be.
pub fn blocks(heap: &[u8]) -> Option<Vec<Block>> {
    let mut blocks: Vec<Block> = Vec::new();
    let mut at = 0;
    while at != heap.len() {
        if at + 8 > heap.len() {
            return None;
        }
        let size = number(heap, at, 2) * 8;
        let back_size = number(heap, at + 2, 2) * 8;
        let serial = number(heap, at + 4, 4);
        let least = if serial == 0 { 8 } else { 16 };
        if size < least || back_size != blocks.last().map_or(0, |block| block.size) {
            return None;
        }
        if serial == 0 && blocks.last().is_some_and(|block| block.serial == 0) {
            return None;
        }
        blocks.push(Block {
            offset: at as u32,
            size,
            serial,
        });
        at += size as usize;
    }
    Some(blocks)
}

/// Judges consistency for a heap of allowed length.
pub fn is_sound(heap: &[u8], accounts: &Accounts) -> bool {
    let Some(blocks) = blocks(heap) else {
        return false;
    };
    let quarantined = |block: &Block| block.serial == 0xFFFF_FFFF;
    let edition = match accounts.edition {
        0 => Edition::First,
        1 => Edition::Second,
        _ => return false,
    };
    let kind_is_sound = match accounts.kind {
        0 => !blocks.iter().any(quarantined),
        1 => true,
        _ => false,
    };
    let live = |block: &Block| block.serial != 0 && !quarantined(block);
    let live: Vec<Block> = blocks.into_iter().filter(live).collect();
    kind_is_sound
        && accounts.last_serial <= 0xFFFF_FFFE
        && serials_are_sound(&live, accounts)
        && records_are_sound(&live, accounts)
        && sums_are_sound(&live, accounts)
        && live.iter().all(|block| fits_its_unit(block, edition))
        && accounts.quotas.iter().all(|quota| quota.permissions < 8)
}

/// Judges the rules about live serials (5.3 and 5.4).
fn serials_are_sound(live: &[Block], accounts: &Accounts) -> bool {
    live.iter().enumerate().all(|(i, block)| {
        let repeated = live[..i].iter().any(|other| other.serial == block.serial);
        !repeated && block.serial <= accounts.last_serial
    })
}

/// Judges the rules about records (5.5 to 5.7).
fn records_are_sound(live: &[Block], accounts: &Accounts) -> bool {
    let used = |i: usize| {
        let hold = accounts.holds[i];
        hold.serial != 0 || hold.quota != 0 || hold.count != 0
    };
    for i in (0..accounts.holds.len()).filter(|&i| used(i)) {
        let hold = accounts.holds[i];
        let names_live = live.iter().any(|block| block.serial == hold.serial);
        if !names_live || usize::from(hold.quota) >= QUOTAS || hold.count == 0 {
            return false;
        }
        for j in (0..i).filter(|&j| used(j)) {
            let other = accounts.holds[j];
            if other.serial == hold.serial && other.quota == hold.quota {
                return false;
            }
        }
    }
    live.iter().all(|block| {
        accounts
            .holds
            .iter()
            .any(|hold| hold.serial == block.serial)
    })
}

/// Judges the rule about grants (5.8).
fn sums_are_sound(live: &[Block], accounts: &Accounts) -> bool {
    let mut sums = accounts.quotas.map(|quota| i128::from(quota.remainder));
    for block in live {
        let mut has_record = [false; QUOTAS];
        for hold in &accounts.holds {
            if hold.serial == block.serial {
                has_record[usize::from(hold.quota)] = true;
            }
        }
        for quota in (0..QUOTAS).filter(|quota| has_record[*quota]) {
            sums[quota] += i128::from(block.size);
        }
    }
    (0..QUOTAS).all(|quota| sums[quota] == i128::from(accounts.quotas[quota].grant))
}

/// Judges whether an object's base and length are multiples of its unit (5.10).
fn fits_its_unit(block: &Block, edition: Edition) -> bool {
    let (base, length) = (block.offset + 8, block.size - 8);
    let unit = unit_in(edition, length);
    base % unit == 0 && length % unit == 0
}
