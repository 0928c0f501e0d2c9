//! The statistics of a heap and of a quota (rules, section 25): each byte is counted by the block that it is in, and every length is tried.

use std::collections::BTreeSet;

use crate::accounts::{Accounts, QuotaNumber};
use crate::layout::{Block, HEADER_BYTES};
use crate::refusal::Refusal;
use crate::sound::sound_layout;

/// Some blocks: how many, and their bytes with the headers.
#[derive(Clone, Copy, Debug, Default, PartialEq, Eq)]
pub struct BlockCount {
    /// How many there are.
    pub blocks: usize,
    /// How many bytes they have.
    pub bytes: usize,
}

/// The statistics of a heap.
#[derive(Clone, Copy, Debug, Default, PartialEq, Eq)]
pub struct Statistics {
    /// The last serial given.
    pub last_serial: u32,
    /// The used hold records.
    pub records: usize,
    /// The free blocks.
    pub free: BlockCount,
    /// The blocks of objects.
    pub live: BlockCount,
    /// The blocks in quarantine.
    pub quarantined: BlockCount,
    /// The bytes of the largest free block.
    pub largest_free: usize,
    /// The bytes of the other free blocks.
    pub fragmented: usize,
    /// The longest request in the units 8, 16, 32 and 64.
    pub largest: [usize; 4],
}

/// The statistics of a quota.
#[derive(Clone, Copy, Debug, Default, PartialEq, Eq)]
pub struct QuotaStatistics {
    /// What it was granted.
    pub grant: u32,
    /// What remains.
    pub remaining: u32,
    /// The objects that it holds.
    pub objects: usize,
    /// Those that another quota holds too.
    pub shared: usize,
}

/// The units of which there are statistics.
const UNITS: [u32; 4] = [8, 16, 32, 64];

/// Gives the statistics of a heap (rules 25.1 to 25.8).
pub fn statistics(heap: &[u8], accounts: &Accounts) -> Result<Statistics, Refusal> {
    let layout = sound_layout(heap, accounts)?;
    let blocks = layout.blocks();
    let edition = accounts.options().ok_or(Refusal::NotSound)?.edition;
    let owners = owners(&blocks);
    let counted = |test: fn(Block) -> bool| BlockCount {
        blocks: blocks.iter().filter(|block| test(**block)).count(),
        bytes: owners.iter().filter(|block| test(**block)).count(),
    };
    let free = counted(Block::is_free);
    let sizes = blocks.iter().filter(|block| block.is_free());
    let largest_free = sizes.map(|block| block.size as usize).max().unwrap_or(0);
    let runs = runs(&owners);
    let longest = UNITS.map(|unit| longest_at(unit as usize, &runs));
    let mut largest = [0; 4];
    for request in 1..=heap.len() {
        let Ok(rounded) = edition.round(request as u64) else {
            continue;
        };
        let Some(place) = UNITS.iter().position(|unit| *unit == rounded.alignment) else {
            continue;
        };
        if (HEADER_BYTES + rounded.length) as usize <= longest[place] {
            largest[place] = request;
        }
    }
    Ok(Statistics {
        last_serial: accounts.last_serial,
        records: accounts.holds.iter().filter(|hold| hold.is_used()).count(),
        free,
        live: counted(Block::is_live),
        quarantined: counted(Block::is_quarantined),
        largest_free,
        fragmented: free.bytes - largest_free,
        largest,
    })
}

/// For each byte, the block that it is in.
fn owners(blocks: &[Block]) -> Vec<Block> {
    let bytes = blocks
        .iter()
        .flat_map(|block| vec![*block; block.size as usize]);
    bytes.collect()
}

/// For each place, how many bytes from there on lie in free blocks.
fn runs(owners: &[Block]) -> Vec<usize> {
    let mut runs = vec![0; owners.len() + 1];
    for (place, block) in owners.iter().enumerate().rev() {
        runs[place] = if block.is_free() {
            runs[place + 1] + 1
        } else {
            0
        };
    }
    runs
}

/// The longest of the runs that begin a header before a multiple of the unit.
fn longest_at(unit: usize, runs: &[usize]) -> usize {
    let header = HEADER_BYTES as usize;
    let places = (unit - header..runs.len()).step_by(unit);
    places.map(|place| runs[place]).max().unwrap_or(0)
}

/// Gives the statistics of a quota (rules 25.1, 25.9 and 25.10).
pub fn quota_statistics(
    heap: &[u8],
    accounts: &Accounts,
    quota: u32,
) -> Result<QuotaStatistics, Refusal> {
    sound_layout(heap, accounts)?;
    let number = QuotaNumber::new(quota)?;
    let held = |own: bool| -> BTreeSet<u32> {
        let used = accounts.holds.iter().filter(|hold| hold.is_used());
        used.filter(|hold| (u32::from(hold.quota) == quota) == own)
            .map(|hold| hold.serial)
            .collect()
    };
    let (own, others) = (held(true), held(false));
    Ok(QuotaStatistics {
        grant: accounts.quotas[quota as usize].grant,
        remaining: accounts.remainder(number),
        objects: own.len(),
        shared: own.intersection(&others).count(),
    })
}
