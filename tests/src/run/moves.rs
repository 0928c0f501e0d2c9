//! Images moved to the other form by the proved code and by the reference, and compared.

use lokhazim_reference::{move_down, move_up};

use crate::cases::harms::HARMS;
use crate::cases::states::{sound, sound_in};
use crate::judge::compare::{file_stem, save, Failure};
use crate::judge::forms::{carry, Form, FORMS, FORM_1, FORM_2};
use crate::run::boundary::images as proved;
use crate::run::calls::Pair;
use crate::run::image_cases::{forged_image, harmed_image, image_of, OVERFULL};
use crate::seed::Seed;
use crate::state::State;

/// What a move leaves and answers, as one side has it.
#[derive(PartialEq, Eq)]
struct Moved {
    refusal: u32,
    length: usize,
    out: Vec<u8>,
    image: Vec<u8>,
}

impl Pair {
    /// Moves an image from a form to the other one into lent bytes on both sides, compares, and gives
    /// the refusal and the bytes that then lie there. Where the image is not of that form, both are
    /// to refuse it.
    pub fn move_image(
        &mut self,
        from: Form,
        image: &[u8],
        lent: &[u8],
    ) -> Result<(u32, Vec<u8>), Failure> {
        let mut moved = lent.to_vec();
        let answer = match from.number {
            1 => move_up(image, &mut moved),
            _ => move_down(image, &mut moved),
        };
        let expected = Moved {
            refusal: answer.map_or_else(|r| u32::from(r.number()), |_| 0),
            length: answer.unwrap_or(0),
            out: moved,
            image: image.to_vec(),
        };
        let (mut lent_image, mut out) = (self.lend(image), self.lend(lent));
        let (refusal, length) = proved::move_from(from, lent_image.part(), out.part());
        let found = Moved {
            refusal,
            length,
            out: out.part().to_vec(),
            image: lent_image.part().to_vec(),
        };
        let guards = lent_image.guards_hold() && out.guards_hold();
        if found != expected || !guards {
            return Err(self.moved_apart(from, image, &found, &expected, guards)?);
        }
        self.tally.count_image(from.moved, refusal);
        Ok((refusal, found.out))
    }

    /// Says what differs between the two sides, and saves the image.
    fn moved_apart(
        &self,
        from: Form,
        image: &[u8],
        found: &Moved,
        expected: &Moved,
        guards_hold: bool,
    ) -> Result<Failure, Failure> {
        let file = save(&format!("move-{}.image", file_stem(&self.origin)), image)?;
        Ok(Failure(format!(
            "{}: {} into {} bytes: refusal proved {}, reference {}; length {} and {}; equal output {}, image {}; guards hold {guards_hold}. \
             The image is saved in {}",
            self.origin,
            from.moved,
            found.out.len(),
            found.refusal,
            expected.refusal,
            found.length,
            expected.length,
            found.out == expected.out,
            found.image == expected.image,
            file.display()
        )))
    }
}

/// Gives the refusal of moving from a form the image of a state that this form has (rule 17.2), by
/// the harness's own reading, or 0.
fn movers_refusal(from: Form, form: Form, state: &State, lent: usize) -> u32 {
    let to = from.other();
    if form != from {
        23
    } else if !to.carries(state) {
        28
    } else if lent < to.length(state.heap.len()) {
        25
    } else {
        0
    }
}

/// Moves the image of a state in a form both ways, into bytes that are long enough, longer and too
/// short, and moves back what was moved.
pub fn there_and_back(
    pair: &mut Pair,
    form: Form,
    state: &State,
    image: &[u8],
    seed: &mut Seed,
) -> Result<(), Failure> {
    for from in FORMS {
        let to = from.other();
        let needed = to.length(state.heap.len());
        for lent in [needed, needed + 1 + seed.place(700), needed - 1, 0] {
            let mut before = vec![0; lent];
            before.fill_with(|| seed.byte());
            let (refusal, out) = pair.move_image(from, image, &before)?;
            let wanted = movers_refusal(from, form, state, lent);
            if refusal != wanted {
                return Err(Failure(format!(
                    "{}: {} into {lent} bytes gives {refusal}, and {wanted} by the rules",
                    pair.origin, from.moved
                )));
            }
            if refusal != 0 {
                continue;
            }
            let (moved, behind) = out.split_at(needed);
            let (refusal, back) = pair.move_image(to, moved, &vec![7; image.len()])?;
            let right = moved == carry(to, state) && behind == &before[needed..];
            if !right || refusal != 0 || back != image {
                return Err(Failure(format!(
                    "{}: {} is not the state's image, or does not come back",
                    pair.origin, from.moved
                )));
            }
        }
    }
    Ok(())
}

/// Moves images of the n-th state of a seed in each form that carries it, and of the same state with
/// one thing more that form 1 can't carry.
pub fn states(pair: &mut Pair, seed: u64, n: u64) -> Result<(), Failure> {
    pair.begin("move-state", seed, n);
    let mut numbers = Seed::of_case(seed, n);
    let mut state = match numbers.below(4) {
        0 => sound(&mut numbers),
        _ => sound_in(FORM_1, &mut numbers),
    };
    for form in FORMS.into_iter().filter(|form| form.carries(&state)) {
        let image = image_of(pair, form, &state)?;
        there_and_back(pair, form, &state, &image, &mut numbers)?;
    }
    if !FORM_1.carries(&state) {
        return Ok(());
    }
    let (_, overfill) = OVERFULL[(n % OVERFULL.len() as u64) as usize];
    overfill(&mut numbers, &mut state);
    let image = image_of(pair, FORM_2, &state)?;
    there_and_back(pair, FORM_2, &state, &image, &mut numbers)
}

/// Moves an image of any bytes both ways, into bytes that are mostly long enough.
fn both_ways(
    pair: &mut Pair,
    image: &[u8],
    heap_length: usize,
    seed: &mut Seed,
) -> Result<(), Failure> {
    for from in FORMS {
        let needed = from.other().length(heap_length);
        let lent = seed.pick(&[needed, needed, needed + 3, needed - 1, 0]);
        pair.move_image(from, image, &vec![7; lent])?;
    }
    Ok(())
}

/// Moves the n-th harmed image of a seed, of a state that its form carries or of one that form 1 does.
pub fn harmed(pair: &mut Pair, seed: u64, n: u64) -> Result<(), Failure> {
    let narrow = (n / HARMS.len() as u64).is_multiple_of(2);
    let (image, heap) = harmed_image(pair, narrow, seed, n)?;
    both_ways(pair, &image, heap.len(), &mut Seed::of_case(seed, n))
}

/// Moves the n-th forged image of a seed.
pub fn forged(pair: &mut Pair, seed: u64, n: u64) -> Result<(), Failure> {
    match forged_image(pair, seed, n) {
        Some((image, heap)) => both_ways(pair, &image, heap.len(), &mut Seed::of_case(seed, n)),
        None => Ok(()),
    }
}
