//! Cases for images: states and what is lent for them, and images with one thing wrong.

use lokhazim_reference::{Hold, QUOTAS};

use crate::cases::damage::{damaged_alone, damaged_together, DAMAGES};
use crate::cases::harms::{Harm, HARMS};
use crate::cases::states::{heap_length, sound, sound_in};
use crate::judge::compare::Failure;
use crate::judge::cut::{blocks, QUARANTINED};
use crate::judge::forms::{carry, renumber, seal, Form, FORMS, FORM_1, FRAME};
use crate::judge::rules::broken;
use crate::judge::rules::check_refusal;
use crate::run::calls::Pair;
use crate::seed::Seed;
use crate::state::State;

/// Gives the refusal of writing an image into so many lent bytes (rules 13.5 and 16.6), by the
/// harness's own reading, or 0.
fn writers_refusal(form: Form, state: &State, lent: usize) -> u32 {
    match check_refusal(state) {
        0 if !form.carries(state) => 28,
        0 if lent < form.length(state.heap.len()) => 25,
        refusal => refusal,
    }
}

/// Writes a state on both sides into bytes that are long enough, too short, or longer, and reads
/// what was written back.
pub fn round_trip(
    pair: &mut Pair,
    form: Form,
    state: &State,
    seed: &mut Seed,
) -> Result<(), Failure> {
    let needed = form.length(state.heap.len());
    for lent in [needed, needed + 1 + seed.place(700), needed - 1, 0] {
        let mut before = vec![0; lent];
        before.fill_with(|| seed.byte());
        let (refusal, image) = pair.write_image(form, state, &before)?;
        let wanted = writers_refusal(form, state, lent);
        if refusal != wanted {
            return Err(Failure(format!(
                "{}: form {} in {lent} bytes gives {refusal}, and {wanted} by the rules",
                pair.origin, form.number
            )));
        }
        if refusal != 0 {
            continue;
        }
        let mut heap = vec![0; state.heap.len()];
        heap.fill_with(|| seed.byte());
        let (refusal, restored) = pair.read_image(&image[..needed], &heap)?;
        if refusal != 0 || restored != *state || image[needed..] != before[needed..] {
            return Err(Failure(format!(
                "{}: what was written is not what is read",
                pair.origin
            )));
        }
    }
    Ok(())
}

/// Round trips of the n-th state of a seed in both forms: consistent, damaged, or of a length that
/// is not allowed.
pub fn states(pair: &mut Pair, seed: u64, n: u64) -> Result<(), Failure> {
    pair.begin("image-state", seed, n);
    let mut numbers = Seed::of_case(seed, n);
    let mut state = sound(&mut numbers);
    match numbers.below(10) {
        0 => state.heap.truncate(numbers.place(80)),
        1 => state.heap.extend([0; 7]),
        2 | 3 => state = damaged_together(&mut numbers).unwrap_or(state),
        _ => {}
    }
    for form in FORMS {
        round_trip(pair, form, &state, &mut numbers)?;
    }
    Ok(())
}

/// A change of a state, by its name.
type Change = (&'static str, fn(&mut Seed, &mut State));

/// Why form 1 can't carry a state (rule 16.6), one reason at a time.
pub const OVERFULL: [Change; 5] = [
    ("a grant behind the form's quotas", |seed, state| {
        let number = seed.between(FORM_1.quotas as u32, QUOTAS as u32 - 1);
        let quota = &mut state.accounts.quotas[number as usize];
        let more = seed.pick(&[1, 24, u32::MAX, seed.clone().odd_word().max(1)]);
        quota.grant = more;
        quota.remainder = more;
    }),
    ("a record behind the form's", |seed, state| {
        let holds = &mut state.accounts.holds;
        let used: Vec<usize> = (0..FORM_1.records)
            .filter(|place| holds[*place].is_used())
            .collect();
        if let Some(place) = seed.any_of(&used) {
            let behind = FORM_1.records + seed.place(holds.len() - FORM_1.records);
            let to = seed.pick(&[FORM_1.records, holds.len() - 1, behind]);
            holds[to] = holds[place];
            holds[place] = Hold::UNUSED;
        }
    }),
    ("a permission cleared", |seed, state| {
        let quota = &mut state.accounts.quotas[seed.place(QUOTAS)];
        quota.permissions = seed.pick(&[3, 5, 6, seed.clone().below(7) as u8]);
    }),
    ("the kind with quarantine", |seed, state| {
        state.accounts.kind = 1;
        let mut long = blocks(&state.heap);
        long.retain(|block| block.serial == 0 && block.size >= 16);
        if let Some(block) = seed.any_of(&long).filter(|_| seed.clone().percent(50)) {
            let place = block.offset as usize + 4;
            state.heap[place..place + 4].copy_from_slice(&QUARANTINED.to_le_bytes());
        }
    }),
    ("the second edition", |_, state| {
        state.accounts.edition = 1;
        if !broken(state).is_empty() {
            state.accounts.edition = 0;
        }
    }),
];

/// Round trips in form 1 of the n-th state of a seed that it can just carry, and of the same state
/// with one thing that it can't.
pub fn narrow(pair: &mut Pair, seed: u64, n: u64) -> Result<(), Failure> {
    pair.begin("image-narrow", seed, n);
    let mut numbers = Seed::of_case(seed, n);
    let mut state = sound_in(FORM_1, &mut numbers);
    round_trip(pair, FORM_1, &state, &mut numbers)?;
    let (name, overfill) = OVERFULL[(n % OVERFULL.len() as u64) as usize];
    overfill(&mut numbers, &mut state);
    if !FORM_1.carries(&state) {
        pair.tally.count_case(name);
    }
    round_trip(pair, FORM_1, &state, &mut numbers)
}

/// Gives an image of a state that the form can carry.
pub fn image_of(pair: &mut Pair, form: Form, state: &State) -> Result<Vec<u8>, Failure> {
    let lent = vec![0; form.length(state.heap.len())];
    match pair.write_image(form, state, &lent)? {
        (0, image) => Ok(image),
        (refusal, _) => Err(Failure(format!(
            "{}: an image is wanted, and refused by {refusal}",
            pair.origin
        ))),
    }
}

/// Changes each byte of an image once, with its checks as they were and with right ones, and reads it.
pub fn every_byte(
    pair: &mut Pair,
    form: Form,
    state: &State,
    seed: &mut Seed,
) -> Result<(), Failure> {
    let image = image_of(pair, form, state)?;
    for place in 0..image.len() {
        let mut changed = image.clone();
        changed[place] ^= 1 << seed.below(8);
        pair.read_image(&changed, &state.heap)?;
        seal(&mut changed);
        pair.read_image(&changed, &state.heap)?;
    }
    Ok(())
}

/// Gives the n-th harmed image of a seed, with one kind of harm or two, and the heap that is lent for
/// it; where asked for, of a state that form 1 carries, whatever the image's form.
pub fn harmed_image(
    pair: &mut Pair,
    narrow: bool,
    seed: u64,
    n: u64,
) -> Result<(Vec<u8>, Vec<u8>), Failure> {
    let Harm { name, forms, way } = HARMS[(n % HARMS.len() as u64) as usize];
    pair.begin(&format!("image with {name}"), seed, n);
    let mut numbers = Seed::of_case(seed, n);
    let form = numbers.pick(forms);
    let state = sound_in(if narrow { FORM_1 } else { form }, &mut numbers);
    let mut image = image_of(pair, form, &state)?;
    let mut heap = state.heap;
    way(&mut numbers, form, &mut image, &mut heap);
    if numbers.percent(25) && image.len() >= form.length(64) && heap.len() >= 64 {
        let second = &HARMS[numbers.place(HARMS.len())];
        if second.forms.contains(&form) {
            (second.way)(&mut numbers, form, &mut image, &mut heap);
        }
    }
    pair.tally.count_case(name);
    Ok((image, heap))
}

/// Reads the n-th harmed image of a seed.
pub fn harmed(pair: &mut Pair, seed: u64, n: u64) -> Result<(), Failure> {
    let (image, heap) = harmed_image(pair, false, seed, n)?;
    pair.read_image(&image, &heap)?;
    Ok(())
}

/// Gives the n-th image of a seed whose frames carry a state that is not consistent, or bytes of
/// any kind, and a heap to lend for it; none where no such state was made.
pub fn forged_image(pair: &mut Pair, seed: u64, n: u64) -> Option<(Vec<u8>, Vec<u8>)> {
    pair.begin("forged-image", seed, n);
    let mut numbers = Seed::of_case(seed, n);
    let form = numbers.pick(&FORMS);
    let damage = &DAMAGES[(n % DAMAGES.len() as u64) as usize];
    let state = damaged_alone(&mut numbers, damage)?;
    if numbers.percent(15) {
        let mut image = vec![0; FRAME * numbers.between(1, 12) as usize];
        image.fill_with(|| numbers.byte());
        renumber(&mut image);
        return Some((image, vec![0; heap_length(&mut numbers) as usize]));
    }
    Some((carry(form, &state), state.heap))
}

/// Reads the n-th forged image of a seed.
pub fn forged(pair: &mut Pair, seed: u64, n: u64) -> Result<(), Failure> {
    if let Some((image, heap)) = forged_image(pair, seed, n) {
        pair.read_image(&image, &heap)?;
    }
    Ok(())
}
