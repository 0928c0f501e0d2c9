//! Pairs of images compared by the proved code and by the reference.

use lokhazim_reference::{differences, Accounts, Difference, Which};

use crate::cases::harms::HARMS;
use crate::cases::states::{heap_length, sound_in, Plan};
use crate::judge::compare::{file_stem, save, Failure};
use crate::judge::cut::{blocks, quarantined, GREATEST_SERIAL};
use crate::judge::forms::{Form, FORMS, FORM_2};
use crate::judge::rules::broken;
use crate::run::boundary::images as proved;
use crate::run::calls::Pair;
use crate::run::image_cases::image_of;
use crate::seed::Seed;
use crate::state::State;

/// How many differences are asked for by number; the others only one after the other.
const BY_NUMBER: usize = 12;

impl Pair {
    /// Compares two images on both sides: the first differences and the last by number, what
    /// comes behind them, and all of them one after the other.
    pub fn compare_images(&mut self, first: &[u8], second: &[u8]) -> Result<(), Failure> {
        let expected = differences(first, second).map_err(|(refusal, which)| {
            let which = match which {
                Which::First => 1,
                Which::Second => 2,
                Which::Neither => 0,
            };
            (u32::from(refusal.number()), which)
        });
        let wrong = match &expected {
            Err(refused) => self.refused_alike(first, second, *refused),
            Ok(all) => self.listed_alike(first, second, all),
        };
        let Some(wrong) = wrong else {
            return Ok(());
        };
        let name = file_stem(&self.origin);
        let file = save(&format!("compare-{name}.first.image"), first)?;
        save(&format!("compare-{name}.second.image"), second)?;
        Err(Failure(format!(
            "{}: {wrong}. The first image is saved in {}, the second beside it",
            self.origin,
            file.display()
        )))
    }

    /// Says what is wrong with the refusal of the proved code, for some numbers and positions asked.
    fn refused_alike(&mut self, a: &[u8], b: &[u8], refused: (u32, u32)) -> Option<String> {
        self.tally.count_image("compared", refused.0);
        let asked = [0, 1, usize::MAX].map(|n| proved::compare(a, b, n));
        if let Some(wrong) = asked.into_iter().find(|answer| *answer != Err(refused)) {
            return Some(format!("proved {wrong:?}, reference refusal {refused:?}"));
        }
        let positions = [
            (0, 0),
            (1, 31),
            (2, 0),
            (3, 0),
            (3, usize::MAX),
            (4, 0),
            (5, 7),
            (6, 1),
        ];
        let next = positions.map(|from| proved::next_difference(a, b, from));
        let wrong = next.into_iter().find(|answer| *answer != Err(refused))?;
        Some(format!(
            "next: proved {wrong:?}, reference refusal {refused:?}"
        ))
    }

    /// Says what is wrong with the differences that the proved code lists.
    fn listed_alike(&mut self, a: &[u8], b: &[u8], all: &[Difference]) -> Option<String> {
        self.tally.count_image("compared", 0);
        let numbers = (0..all.len().min(BY_NUMBER))
            .chain(all.len().saturating_sub(1)..all.len() + 2)
            .chain([usize::MAX]);
        for n in numbers {
            let answer = proved::compare(a, b, n);
            if answer != Ok(all.get(n).copied()) {
                return Some(format!(
                    "difference {n}: proved {answer:?}, reference {:?}",
                    all.get(n)
                ));
            }
        }
        let listed = proved::all_differences(a, b);
        (listed.as_deref() != Ok(all)).then(|| {
            format!(
                "one after the other {:?} differences are listed, and the reference has {}",
                listed.map(|listed| listed.len()),
                all.len()
            )
        })
    }
}

/// What is done to a state so that it differs, stays consistent, and can still be carried.
fn changed(seed: &mut Seed, form: Form, state: &State) -> State {
    let mut other = state.clone();
    for _ in 0..seed.below(4) {
        change_accounts(seed, form, &mut other.accounts);
    }
    let plain = quarantined(&state.heap).is_empty();
    if form == FORM_2 && plain && seed.percent(30) {
        other.accounts.kind ^= 1;
    }
    if form == FORM_2 && seed.percent(30) {
        other.accounts.edition ^= 1;
        if !broken(&other).is_empty() {
            other.accounts.edition ^= 1;
        }
    }
    let filled: Vec<_> = blocks(&state.heap)
        .into_iter()
        .filter(|block| block.serial != 0)
        .collect();
    for _ in 0..seed.below(6) {
        let Some(block) = seed.any_of(&filled) else {
            break;
        };
        let (start, end) = (
            block.offset as usize + 8,
            (block.offset + block.size) as usize,
        );
        let inside = start + seed.place(end - start);
        let from = seed.pick(&[start, end - 1, inside]);
        let to = end.min(from + 1 + seed.place(9));
        other.heap[from..to].fill(seed.byte());
    }
    other
}

/// Changes one thing of the accounts, among what a form carries.
fn change_accounts(seed: &mut Seed, form: Form, accounts: &mut Accounts) {
    let quota = &mut accounts.quotas[seed.place(form.quotas)];
    let (place, other) = (seed.place(form.records), seed.place(form.records));
    match seed.below(5) {
        0 => accounts.last_serial = GREATEST_SERIAL.min(accounts.last_serial + 1),
        1 => {
            if let Some(more) = quota.grant.checked_add(5) {
                quota.grant = more;
                quota.remainder += 5;
            }
        }
        2 if form == FORM_2 => quota.permissions = seed.below(8) as u8,
        3 => accounts.holds.swap(place, other),
        _ => {
            let hold = &mut accounts.holds[place];
            if hold.is_used() {
                hold.count = hold.count % 255 + 1;
            }
        }
    }
}

/// Compares the n-th pair of a seed: equal, changed a little, of two states, damaged, of two lengths,
/// or of two forms.
pub fn pairs(pair: &mut Pair, seed: u64, n: u64) -> Result<(), Failure> {
    pair.begin("image-pair", seed, n);
    let mut numbers = Seed::of_case(seed, n);
    let form = numbers.pick(&FORMS);
    let state = sound_in(form, &mut numbers);
    let first = image_of(pair, form, &state)?;
    let same_length = state.heap.len() as u32;
    let any_length = heap_length(&mut numbers);
    let second = match numbers.below(12) {
        0 => first.clone(),
        1 => planned(pair, form, &mut numbers, same_length)?,
        2 => planned(pair, form, &mut numbers, any_length)?,
        3 => planned(pair, form.other(), &mut numbers, same_length)?,
        4 => planned(pair, form.other(), &mut numbers, any_length)?,
        5 | 6 => {
            let (mut image, mut heap) = (first.clone(), state.heap.clone());
            let harm = &HARMS[numbers.place(HARMS.len())];
            if harm.forms.contains(&form) {
                (harm.way)(&mut numbers, form, &mut image, &mut heap);
            }
            image
        }
        _ => image_of(pair, form, &changed(&mut numbers, form, &state))?,
    };
    pair.compare_images(&first, &second)?;
    pair.compare_images(&second, &first)
}

/// Gives an image of any state of a heap of this length, in a form.
fn planned(
    pair: &mut Pair,
    form: Form,
    seed: &mut Seed,
    heap_length: u32,
) -> Result<Vec<u8>, Failure> {
    let state = Plan::in_form(form, seed, heap_length).render(seed);
    image_of(pair, form, &state)
}
