//! Damage to a plan, before its grants are worked out and its bytes written: the sums stay true.

use lokhazim_reference::{Hold, QUOTAS};

use crate::cases::pieces::Piece;
use crate::cases::states::Plan;
use crate::judge::cut::{is_live, QUARANTINED};
use crate::judge::ledger::unit;
use crate::seed::Seed;

/// Cuts a live block down to its header.
pub(super) fn short_live_block(plan: &mut Plan, seed: &mut Seed) -> Option<()> {
    let place = seed.any_of(&plan.live())?;
    cut_down(plan, place)
}

/// Gives the places of the quarantined pieces.
fn quarantined(plan: &Plan) -> Vec<usize> {
    let places = 0..plan.pieces.len();
    places
        .filter(|place| plan.pieces[*place].serial == QUARANTINED)
        .collect()
}

/// Cuts a quarantined block down to its header.
pub(super) fn short_quarantined_block(plan: &mut Plan, seed: &mut Seed) -> Option<()> {
    let place = seed.any_of(&quarantined(plan))?;
    cut_down(plan, place)
}

/// Makes a free block of at least 16 bytes quarantined where none is, and the heap plain.
pub(super) fn quarantined_in_plain(plan: &mut Plan, seed: &mut Seed) -> Option<()> {
    plan.kind = 0;
    if quarantined(plan).is_empty() {
        let place = seed.any_of(&long_free(plan))?;
        plan.pieces[place].serial = QUARANTINED;
    }
    Some(())
}

/// Gives a live block and its records the serial of quarantine.
pub(super) fn quarantined_with_records(plan: &mut Plan, seed: &mut Seed) -> Option<()> {
    let place = seed.any_of(&plan.live())?;
    let old = plan.pieces[place].serial;
    plan.kind = 1;
    plan.pieces[place].serial = QUARANTINED;
    for record in plan.records.iter_mut().filter(|h| h.serial == old) {
        record.serial = QUARANTINED;
    }
    Some(())
}

/// Cuts a block down to its header and gives the rest to a free block behind it.
fn cut_down(plan: &mut Plan, place: usize) -> Option<()> {
    let rest = plan.pieces[place].size - 8;
    plan.pieces[place].size = 8;
    let behind = plan.pieces.get_mut(place + 1);
    if let Some(free) = behind.filter(|piece| piece.serial == 0) {
        free.size += rest;
        return Some(());
    }
    let free = Piece {
        size: rest,
        serial: 0,
    };
    plan.pieces.insert(place + 1, free);
    Some(())
}

/// Gives the places of live pieces whose object has a unit above 8.
fn long(plan: &Plan) -> Vec<usize> {
    let mut places = plan.live();
    places.retain(|place| unit(plan.edition, plan.pieces[*place].size - 8) > 8);
    places
}

/// Adds bytes to the free piece at a place, or takes them from it; where none stands there, one is
/// put there.
fn change_free(plan: &mut Plan, place: usize, by: i32) -> Option<()> {
    let there = plan.pieces.get(place);
    if there.is_none_or(|piece| piece.serial != 0) {
        plan.pieces.insert(place, Piece { size: 0, serial: 0 });
    }
    plan.pieces[place].size = plan.pieces[place].size.checked_add_signed(by)?;
    Some(())
}

/// Less than a unit, up or down.
const SHIFTS: [i32; 10] = [-48, -32, -24, -16, -8, 8, 16, 24, 32, 48];

/// Makes a long object longer or shorter by less than a unit.
pub(super) fn unfitting_length(plan: &mut Plan, seed: &mut Seed) -> Option<()> {
    let place = seed.any_of(&long(plan))?;
    let by = seed.pick(&SHIFTS);
    change_free(plan, place + 1, -by)?;
    plan.pieces[place].size = plan.pieces[place].size.checked_add_signed(by)?;
    plan.pieces.retain(|piece| piece.size > 0);
    Some(())
}

/// Moves a long object up or down by less than a unit.
pub(super) fn unfitting_base(plan: &mut Plan, seed: &mut Seed) -> Option<()> {
    let place = seed.any_of(&long(plan))?;
    let by = seed.pick(&SHIFTS);
    change_free(plan, place + 1, -by)?;
    let free_in_front = place > 0 && plan.pieces[place - 1].serial == 0;
    change_free(plan, place - usize::from(free_in_front), by)?;
    plan.pieces.retain(|piece| piece.size > 0);
    Some(())
}

/// Puts one object where the unit of its request would: half its own unit, and as long as the
/// first object of its row.
pub(super) fn base_by_the_request(plan: &mut Plan, seed: &mut Seed) -> Option<()> {
    let length = seed.pick(&[8_192, 16_384]);
    let unit = length / 1_024;
    let base = (2 * seed.below(100) + 1) * unit;
    let behind = 8 * seed.below(1_000);
    *plan = Plan::of_object(base + length + behind, base, length);
    Some(())
}

/// Puts one object into a heap of the second edition where only the first would: its base, or else its
/// length, is an odd multiple of the first edition's unit, which is half the second's.
pub(super) fn fitting_edition_1(plan: &mut Plan, seed: &mut Seed) -> Option<()> {
    let first = seed.pick(&[4_096, 8_192, 16_384]);
    let unit = unit(0, first);
    let (base, length) = match seed.percent(50) {
        true => ((2 * seed.below(100) + 1) * unit, first),
        false => (2 * unit * seed.between(1, 100), first + unit),
    };
    let behind = 8 * seed.below(1_000);
    *plan = Plan::of_object(base + length + behind, base, length);
    plan.edition = 1;
    Some(())
}

/// Gives the places of the free pieces of 16 bytes or more.
fn long_free(plan: &Plan) -> Vec<usize> {
    (0..plan.pieces.len())
        .filter(|p| plan.pieces[*p].serial == 0 && plan.pieces[*p].size >= 16)
        .collect()
}

/// Splits a free block in two.
pub(super) fn two_free_blocks(plan: &mut Plan, seed: &mut Seed) -> Option<()> {
    let place = seed.any_of(&long_free(plan))?;
    let units = plan.pieces[place].size / 8;
    let first = 8 * seed.between(1, units - 1);
    let rest = Piece {
        size: 8 * units - first,
        serial: 0,
    };
    plan.pieces[place].size = first;
    plan.pieces.insert(place + 1, rest);
    Some(())
}

/// Gives a live block the serial of another, and drops the records of its own.
pub(super) fn serial_twice(plan: &mut Plan, seed: &mut Seed) -> Option<()> {
    let mut live = plan.live();
    seed.shuffle(&mut live);
    let (first, second) = (*live.first()?, *live.get(1)?);
    let gone = plan.pieces[second].serial;
    plan.pieces[second].serial = plan.pieces[first].serial;
    drop_records(plan, gone);
    Some(())
}

/// Lowers the last serial below the highest live one.
pub(super) fn serial_above_last(plan: &mut Plan, seed: &mut Seed) -> Option<()> {
    let given = plan.pieces.iter().map(|piece| piece.serial);
    let highest = given.filter(|serial| is_live(*serial)).max()?;
    plan.last_serial = highest.checked_sub(1)? - seed.below(highest.min(3));
    Some(())
}

/// Adds a record at any unused place.
pub(super) fn add_record(
    plan: &mut Plan,
    seed: &mut Seed,
    serial: u32,
    quota: u8,
    count: u8,
) -> Option<()> {
    let place = seed.any_of(&plan.record_places(false))?;
    plan.records[place] = Hold {
        serial,
        quota,
        count,
    };
    Some(())
}

/// Adds a record of a serial that no live block has.
pub(super) fn record_of_no_object(plan: &mut Plan, seed: &mut Seed) -> Option<()> {
    let near = plan.pieces[seed.place(plan.pieces.len())]
        .serial
        .wrapping_add(1);
    let serial = seed.pick(&[near, plan.last_serial, u32::MAX, 1, seed.clone().word()]);
    let live = is_live(serial) && plan.pieces.iter().any(|piece| piece.serial == serial);
    let quota = seed.below(QUOTAS as u32) as u8;
    (!live).then(|| add_record(plan, seed, serial, quota, 1))?
}

/// Adds a record of a live serial with a quota that there is not.
pub(super) fn further_high_quota(plan: &mut Plan, seed: &mut Seed) -> Option<()> {
    let place = seed.any_of(&plan.live())?;
    let first = QUOTAS as u8;
    let quota = seed.pick(&[first, first + 1, 2 * first - 1, 2 * first, 128, 255]);
    let serial = plan.pieces[place].serial;
    add_record(plan, seed, serial, quota, 1)
}

/// Changes one used record; the change is handed a number with a bit that no quota's number has.
pub(super) fn change_record(
    plan: &mut Plan,
    seed: &mut Seed,
    change: fn(&mut Hold, u8),
) -> Option<()> {
    let place = seed.any_of(&plan.record_places(true))?;
    let high = (QUOTAS as u8) << seed.below((QUOTAS as u8).leading_zeros() + 1);
    change(&mut plan.records[place], high);
    Some(())
}

/// Adds a second record of a serial and quota.
pub(super) fn record_twice(plan: &mut Plan, seed: &mut Seed, other_count: bool) -> Option<()> {
    let place = seed.any_of(&plan.record_places(true))?;
    let Hold {
        serial,
        quota,
        count,
    } = plan.records[place];
    let count = if other_count { count % 255 + 1 } else { count };
    add_record(plan, seed, serial, quota, count)
}

/// Clears every record of a serial.
fn drop_records(plan: &mut Plan, serial: u32) {
    for record in plan.records.iter_mut().filter(|h| h.serial == serial) {
        *record = Hold::UNUSED;
    }
}

/// Clears every record of one object.
pub(super) fn object_without_record(plan: &mut Plan, seed: &mut Seed) -> Option<()> {
    let place = seed.any_of(&plan.live())?;
    drop_records(plan, plan.pieces[place].serial);
    Some(())
}

/// Clears every record, where there is an object.
pub(super) fn no_record_at_all(plan: &mut Plan, _: &mut Seed) -> Option<()> {
    plan.live().first()?;
    plan.records.fill(Hold::UNUSED);
    Some(())
}
