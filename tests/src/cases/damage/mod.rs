//! Damage to consistent states: ways to break each rule of section 5, alone and together.

mod plan;
mod written;

use plan::{
    add_record, base_by_the_request, change_record, fitting_edition_1, further_high_quota,
    no_record_at_all, object_without_record, quarantined_in_plain, quarantined_with_records,
    record_of_no_object, record_twice, serial_above_last, serial_twice, short_live_block,
    short_quarantined_block, two_free_blocks, unfitting_base, unfitting_length,
};
use written::{
    add_to_quota, charge_each_count, charge_without_header, first_back_size, last_size,
    moved_amount, set_back, set_edition, set_kind, set_permissions, set_size, wrapped_sum,
};

use crate::cases::states::{heap_length, Plan};
use crate::judge::cut::QUARANTINED;
use crate::judge::rules::{broken, Sentence};
use crate::seed::Seed;
use crate::state::State;

/// How damage is done. It gives none where the state has no place for it.
pub enum Way {
    /// To the plan, before grants are worked out and bytes written.
    Plan(fn(&mut Plan, &mut Seed) -> Option<()>),
    /// To the written state.
    State(fn(&mut State, &mut Seed) -> Option<()>),
}

/// One kind of damage.
pub struct Damage {
    /// What is wrong, in words.
    pub name: &'static str,
    /// The rule that it breaks.
    pub sentence: Sentence,
    /// How it is done.
    pub way: Way,
}

/// Makes a kind of damage.
const fn kind(name: &'static str, sentence: Sentence, way: Way) -> Damage {
    Damage {
        name,
        sentence,
        way,
    }
}

/// Every kind of damage.
pub const DAMAGES: [Damage; 46] = [
    kind(
        "a live block of 8 bytes",
        Sentence::Cut,
        Way::Plan(short_live_block),
    ),
    kind(
        "two free blocks side by side",
        Sentence::Cut,
        Way::Plan(two_free_blocks),
    ),
    kind(
        "a size of 0",
        Sentence::Cut,
        Way::State(|s, n| set_size(s, n, |_| 0)),
    ),
    kind(
        "a size of 65,535 units",
        Sentence::Cut,
        Way::State(|s, n| set_size(s, n, |_| 65_535)),
    ),
    kind(
        "a size 65,536 bytes too large",
        Sentence::Cut,
        Way::State(|s, n| set_size(s, n, |u| u ^ 8_192)),
    ),
    kind(
        "a size one unit too large",
        Sentence::Cut,
        Way::State(|s, n| set_size(s, n, |u| u.wrapping_add(1))),
    ),
    kind(
        "a size one unit too small",
        Sentence::Cut,
        Way::State(|s, n| set_size(s, n, |u| u.wrapping_sub(1))),
    ),
    kind(
        "a last block too long",
        Sentence::Cut,
        Way::State(|s, n| last_size(s, n, true)),
    ),
    kind(
        "a last block too short",
        Sentence::Cut,
        Way::State(|s, n| last_size(s, n, false)),
    ),
    kind(
        "a first back size",
        Sentence::Cut,
        Way::State(first_back_size),
    ),
    kind(
        "a back size of 0",
        Sentence::Cut,
        Way::State(|s, n| set_back(s, n, |_| 0)),
    ),
    kind(
        "a back size too large",
        Sentence::Cut,
        Way::State(|s, n| set_back(s, n, |u| u.wrapping_add(1))),
    ),
    kind(
        "a back size too small",
        Sentence::Cut,
        Way::State(|s, n| set_back(s, n, |u| u.wrapping_sub(1))),
    ),
    kind(
        "a back size 65,536 bytes too large",
        Sentence::Cut,
        Way::State(|s, n| set_back(s, n, |u| u ^ 8_192)),
    ),
    kind("a serial twice", Sentence::Serials, Way::Plan(serial_twice)),
    kind(
        "a serial above the last serial",
        Sentence::Serials,
        Way::Plan(serial_above_last),
    ),
    kind(
        "a record of no object",
        Sentence::Records,
        Way::Plan(record_of_no_object),
    ),
    kind(
        "a record of serial 0 with a count",
        Sentence::Records,
        Way::Plan(|p, n| add_record(p, n, 0, 0, 1)),
    ),
    kind(
        "a record of serial 0 with a quota",
        Sentence::Records,
        Way::Plan(|p, n| add_record(p, n, 0, 3, 0)),
    ),
    kind(
        "a further record of a quota that there is not",
        Sentence::Records,
        Way::Plan(further_high_quota),
    ),
    kind(
        "a quota that there is not in a record",
        Sentence::Records,
        Way::Plan(|p, n| change_record(p, n, |h, q| h.quota |= q)),
    ),
    kind(
        "a count of 0",
        Sentence::Records,
        Way::Plan(|p, n| change_record(p, n, |h, _| h.count = 0)),
    ),
    kind(
        "a record twice",
        Sentence::Twice,
        Way::Plan(|p, n| record_twice(p, n, false)),
    ),
    kind(
        "a record twice with another count",
        Sentence::Twice,
        Way::Plan(|p, n| record_twice(p, n, true)),
    ),
    kind(
        "an object without a record",
        Sentence::Held,
        Way::Plan(object_without_record),
    ),
    kind(
        "no record at all",
        Sentence::Held,
        Way::Plan(no_record_at_all),
    ),
    kind(
        "a grant too large",
        Sentence::Sums,
        Way::State(|s, n| add_to_quota(s, n, 1, 0)),
    ),
    kind(
        "a grant too small",
        Sentence::Sums,
        Way::State(|s, n| add_to_quota(s, n, -1, 0)),
    ),
    kind(
        "a remainder too large",
        Sentence::Sums,
        Way::State(|s, n| add_to_quota(s, n, 0, 1)),
    ),
    kind(
        "a remainder too small",
        Sentence::Sums,
        Way::State(|s, n| add_to_quota(s, n, 0, -1)),
    ),
    kind("a sum that wraps", Sentence::Sums, Way::State(wrapped_sum)),
    kind(
        "amounts moved between quotas",
        Sentence::Sums,
        Way::State(moved_amount),
    ),
    kind(
        "a charge for each count",
        Sentence::Sums,
        Way::State(charge_each_count),
    ),
    kind(
        "charges without the header",
        Sentence::Sums,
        Way::State(charge_without_header),
    ),
    kind(
        "a length that is no multiple of its unit",
        Sentence::Units,
        Way::Plan(unfitting_length),
    ),
    kind(
        "a base that is no multiple of its object's unit",
        Sentence::Units,
        Way::Plan(unfitting_base),
    ),
    kind(
        "a base by the unit of the request",
        Sentence::Units,
        Way::Plan(base_by_the_request),
    ),
    kind(
        "a permission that there is not",
        Sentence::Permissions,
        Way::State(|s, n| set_permissions(s, n, |bits, high| bits | high)),
    ),
    kind(
        "permissions that are none of a quota's",
        Sentence::Permissions,
        Way::State(|s, n| set_permissions(s, n, |_, high| high)),
    ),
    kind(
        "a quarantined block of 8 bytes",
        Sentence::Cut,
        Way::Plan(short_quarantined_block),
    ),
    kind(
        "records of a quarantined block",
        Sentence::Records,
        Way::Plan(quarantined_with_records),
    ),
    kind(
        "a quarantined block in a plain heap",
        Sentence::Kind,
        Way::Plan(quarantined_in_plain),
    ),
    kind(
        "a kind that there is not",
        Sentence::Kind,
        Way::State(set_kind),
    ),
    kind(
        "a last serial that no object can have",
        Sentence::LastSerial,
        Way::Plan(|p, _| {
            p.last_serial = QUARANTINED;
            Some(())
        }),
    ),
    kind(
        "an object that fits the first edition alone",
        Sentence::Units,
        Way::Plan(fitting_edition_1),
    ),
    kind(
        "an edition that there is not",
        Sentence::Edition,
        Way::State(set_edition),
    ),
];

/// Makes a state to which all of the damage was done, or none where there was no place for it.
pub fn damaged(seed: &mut Seed, kinds: &[&Damage]) -> Option<State> {
    let length = heap_length(seed);
    let mut plan = Plan::new(seed, length);
    for damage in kinds {
        if let Way::Plan(way) = damage.way {
            way(&mut plan, seed)?;
        }
    }
    let mut state = plan.render(seed);
    for damage in kinds {
        if let Way::State(way) = damage.way {
            way(&mut state, seed)?;
        }
    }
    Some(state)
}

/// Makes a state in which the damage breaks its own rule and no other.
pub fn damaged_alone(seed: &mut Seed, damage: &Damage) -> Option<State> {
    let state = damaged(seed, &[damage])?;
    (broken(&state) == [damage.sentence]).then_some(state)
}

/// Makes a state to which several kinds of damage were done and which is not consistent.
pub fn damaged_together(seed: &mut Seed) -> Option<State> {
    let count = seed.between(2, 5);
    let kinds: Vec<&Damage> = (0..count)
        .map(|_| &DAMAGES[seed.place(DAMAGES.len())])
        .collect();
    let state = damaged(seed, &kinds)?;
    (!broken(&state).is_empty()).then_some(state)
}
