//! Damage to a written state: sizes and back sizes of headers, grants, remainders, permissions, the
//! kind, the edition.

use lokhazim_reference::{Hold, QUOTAS};

use crate::judge::cut::blocks;
use crate::seed::Seed;
use crate::state::State;

/// Writes a 16-bit number of a header.
fn set_half(state: &mut State, offset: usize, units: u16) {
    state.heap[offset..offset + 2].copy_from_slice(&units.to_le_bytes());
}

/// Changes the size, in units, of any block.
pub(super) fn set_size(state: &mut State, seed: &mut Seed, change: fn(u16) -> u16) -> Option<()> {
    let block = seed.any_of(&blocks(&state.heap))?;
    set_half(
        state,
        block.offset as usize,
        change((block.size / 8) as u16),
    );
    Some(())
}

/// Makes the last block end behind the heap's end, or before it.
pub(super) fn last_size(state: &mut State, seed: &mut Seed, longer: bool) -> Option<()> {
    let block = *blocks(&state.heap).last()?;
    let units = (block.size / 8) as u16;
    let by = seed.between(1, 8) as u16;
    let changed = if longer {
        units.wrapping_add(by)
    } else {
        units.checked_sub(by)?
    };
    set_half(state, block.offset as usize, changed);
    Some(())
}

/// Gives the first block a back size.
pub(super) fn first_back_size(state: &mut State, seed: &mut Seed) -> Option<()> {
    let last = *blocks(&state.heap).last()?;
    let units = seed.pick(&[1, 2, 256, 65_535, (last.size / 8) as u16]);
    set_half(state, 2, units);
    Some(())
}

/// Changes the back size, in units, of any block but the first.
pub(super) fn set_back(state: &mut State, seed: &mut Seed, change: fn(u16) -> u16) -> Option<()> {
    let blocks = blocks(&state.heap);
    let place = seed.place(blocks.len().max(1)).checked_sub(1)?;
    let units = (blocks[place].size / 8) as u16;
    set_half(state, blocks[place + 1].offset as usize + 2, change(units));
    Some(())
}

/// Moves a quota's grant and remainder up or down by a little, or by the header's 8.
pub(super) fn add_to_quota(
    state: &mut State,
    seed: &mut Seed,
    grant: i64,
    remainder: i64,
) -> Option<()> {
    let by = seed.pick(&[1, 8, 256, 65_536]);
    let quota = &mut state.accounts.quotas[seed.place(QUOTAS)];
    quota.grant = u32::try_from(i64::from(quota.grant) + grant * by).ok()?;
    quota.remainder = u32::try_from(i64::from(quota.remainder) + remainder * by).ok()?;
    Some(())
}

/// Changes the permissions of any quota; the change is handed a number with a bit above the third.
pub(super) fn set_permissions(
    state: &mut State,
    seed: &mut Seed,
    change: fn(u8, u8) -> u8,
) -> Option<()> {
    let quota = &mut state.accounts.quotas[seed.place(QUOTAS)];
    let (one, any) = (8 << seed.below(5), seed.between(8, 255) as u8);
    quota.permissions = change(quota.permissions, seed.pick(&[one, any]));
    Some(())
}

/// Sets the kind to a number that is none's.
pub(super) fn set_kind(state: &mut State, seed: &mut Seed) -> Option<()> {
    let any = seed.between(2, 255) as u8;
    state.accounts.kind = seed.pick(&[2, 3, 128, 129, 255, any]);
    Some(())
}

/// Sets the edition to a number that is none's.
pub(super) fn set_edition(state: &mut State, seed: &mut Seed) -> Option<()> {
    let any = seed.between(2, 255) as u8;
    state.accounts.edition = seed.pick(&[2, 3, 128, 129, 255, any]);
    Some(())
}

/// Makes remainder and charges agree with the grant only if 2^32 is taken off.
pub(super) fn wrapped_sum(state: &mut State, seed: &mut Seed) -> Option<()> {
    let quotas = &mut state.accounts.quotas;
    let charged: Vec<usize> = (0..QUOTAS)
        .filter(|q| quotas[*q].grant > quotas[*q].remainder)
        .collect();
    let quota = &mut quotas[seed.any_of(&charged)?];
    let charges = quota.grant - quota.remainder;
    quota.grant = seed.below(charges);
    quota.remainder = quota.grant.wrapping_sub(charges);
    Some(())
}

/// Moves a part of one quota's remainder to another.
pub(super) fn moved_amount(state: &mut State, seed: &mut Seed) -> Option<()> {
    let from = seed.place(QUOTAS);
    let to = (from + seed.place(QUOTAS - 1) + 1) % QUOTAS;
    let by = seed.pick(&[1, 8, 24]);
    let quotas = &mut state.accounts.quotas;
    quotas[from].remainder = quotas[from].remainder.checked_sub(by)?;
    quotas[to].remainder = quotas[to].remainder.checked_add(by)?;
    Some(())
}

/// Charges a record's quota once for each count.
pub(super) fn charge_each_count(state: &mut State, seed: &mut Seed) -> Option<()> {
    let mut counted = state.accounts.holds.to_vec();
    counted.retain(|hold| hold.count > 1);
    let hold = seed.any_of(&counted)?;
    let all = blocks(&state.heap);
    let block = all.iter().find(|block| block.serial == hold.serial)?;
    let more = (u32::from(hold.count) - 1) * block.size;
    let quota = state.accounts.quotas.get_mut(usize::from(hold.quota))?;
    quota.grant = quota.grant.checked_add(more)?;
    Some(())
}

/// Charges each object of a quota its length alone.
pub(super) fn charge_without_header(state: &mut State, seed: &mut Seed) -> Option<()> {
    let number = seed.place(QUOTAS);
    let its = |h: &&Hold| h.count > 0 && usize::from(h.quota) == number;
    let objects = state.accounts.holds.iter().filter(its).count() as u32;
    let quota = &mut state.accounts.quotas[number];
    quota.grant -= 8 * objects.min(quota.grant / 8);
    (objects > 0).then_some(())
}
