//! Images moved to the other form by the proved code and by the reference, from fixed seeds.

use lokhazim_reference::{HOLDS, MAX_HEAP, QUOTAS};
use lokhazim_tests::cases::harms::HARMS;
use lokhazim_tests::cases::states::{sound_in, Plan};
use lokhazim_tests::judge::compare::Failure;
use lokhazim_tests::judge::forms::{
    place_of, put_byte, seal, Form, EDITION, FORMS, FORM_1, FORM_2, KIND,
};
use lokhazim_tests::judge::tally::Tally;
use lokhazim_tests::run::calls::Pair;
use lokhazim_tests::run::histories::{self, Beginning};
use lokhazim_tests::run::image_cases::image_of;
use lokhazim_tests::run::moves::{forged, harmed, states, there_and_back};
use lokhazim_tests::seed::Seed;
use lokhazim_tests::state::State;

/// The seed of every case.
const SEED: u64 = 20_261_118;

/// Compares so many cases and gives what was compared.
fn compare(cases: u64, mut case: impl FnMut(&mut Pair, u64) -> Result<(), Failure>) -> Tally {
    let mut pair = Pair::new();
    for n in 0..cases {
        case(&mut pair, n).unwrap_or_else(|failure| panic!("{failure}"));
    }
    println!("{}", pair.tally);
    pair.tally
}

/// An image of a state of form 1 in a heap of this length, in a form.
fn image(pair: &mut Pair, form: Form, length: u32) -> (State, Vec<u8>) {
    let mut seed = Seed::new(SEED);
    let state = Plan::in_form(FORM_1, &mut seed, length).render(&mut seed);
    let image = image_of(pair, form, &state).expect("no difference");
    (state, image)
}

/// The refusal of a move on both sides, into so many bytes.
fn refusal(pair: &mut Pair, from: Form, image: &[u8], lent: usize) -> u32 {
    let moved = pair.move_image(from, image, &vec![7; lent]);
    moved.unwrap_or_else(|failure| panic!("{failure}")).0
}

#[test]
fn states_are_moved_there_and_back() {
    let tally = compare(600, |pair, n| states(pair, SEED, n));
    for form in FORMS {
        assert!(tally.images(form.moved, 0) >= 1_000);
        assert!(tally.images(form.moved, 25) >= 500);
        assert!(tally.images(form.moved, 23) >= 1_000);
    }
    assert!(tally.images(FORM_2.moved, 28) >= 1_500);
    assert_eq!(tally.images(FORM_1.moved, 28), 0);
}

#[test]
fn images_of_histories_are_moved() {
    let tally = compare(240, |pair, n| {
        let beginning = match n % 6 {
            0 => Beginning::Crowd,
            _ => Beginning::Opening,
        };
        histories::run(pair, beginning, SEED, n, 250)
    });
    for form in FORMS {
        assert!(tally.images(form.moved, 0) >= 30);
    }
}

#[test]
fn the_longest_heap_is_moved() {
    let mut pair = Pair::new();
    for form in FORMS {
        let (state, image) = image(&mut pair, form, MAX_HEAP as u32);
        let mut seed = Seed::new(SEED);
        there_and_back(&mut pair, form, &state, &image, &mut seed)
            .unwrap_or_else(|failure| panic!("{failure}"));
    }
}

#[test]
fn harmed_images_are_refused_alike() {
    let tally = compare(200 * HARMS.len() as u64, |pair, n| harmed(pair, SEED, n));
    for form in FORMS {
        for number in [0, 21, 22, 23, 24, 25, 26] {
            assert!(tally.images(form.moved, number) >= 30, "{number}");
        }
    }
    assert!(tally.images(FORM_2.moved, 28) >= 100);
    for harm in &HARMS {
        let name = harm.name;
        assert!(tally.cases.get(name).copied().unwrap_or(0) >= 200, "{name}");
    }
}

#[test]
fn images_of_states_that_are_not_sound_give_26() {
    let tally = compare(1_500, |pair, n| forged(pair, SEED, n));
    for form in FORMS {
        assert!(tally.images(form.moved, 26) >= 300);
    }
}

#[test]
fn every_byte_of_a_small_image_is_changed_once() {
    let mut pair = Pair::new();
    for form in FORMS {
        let (_, image) = image(&mut pair, form, 64);
        let mut seed = Seed::new(SEED);
        for place in 0..image.len() {
            let mut changed = image.clone();
            changed[place] ^= 1 << seed.below(8);
            assert_eq!(refusal(&mut pair, form, &changed, 6_000), 22);
            seal(&mut changed);
            for from in FORMS {
                refusal(&mut pair, from, &changed, 6_000);
            }
        }
    }
    for form in FORMS {
        for number in [22, 23, 24, 26] {
            assert!(pair.tally.images(form.moved, number) >= 10, "{number}");
        }
    }
}

/// The other form's image is refused by 23, however else it is wrong, but for its length and frames.
#[test]
fn the_other_form_comes_behind_the_frames_and_before_the_rest() {
    let mut pair = Pair::new();
    for form in FORMS {
        let (_, image) = image(&mut pair, form, 128);
        let mut expect = |changed: &[u8], own: u32, others: u32| {
            for lent in [0, 6_000] {
                assert_eq!(refusal(&mut pair, form, changed, lent), own);
                assert_eq!(refusal(&mut pair, form.other(), changed, lent), others);
            }
        };
        expect(&[], 21, 21);
        expect(&image[..image.len() - 1], 21, 21);
        expect(&image[..image.len() - 512], 22, 22);
        let with = |place: usize, byte: u8| {
            let mut changed = image.clone();
            put_byte(&mut changed, place, byte);
            changed
        };
        expect(&with(0, 0), 23, 23);
        expect(&with(0, 3), 23, 23);
        for place in [EDITION, KIND] {
            // Form 2 then has a heap of the second edition, or with quarantine, which form 1 can't
            // carry.
            expect(&with(place, 1), if form == FORM_1 { 23 } else { 28 }, 23);
            expect(&with(place, 2), 23, 23);
            expect(&with(place, 255), 23, 23);
        }
        expect(&with(0, form.other().number as u8), 23, 24);
        expect(&with(4, 129), 24, 23);
        expect(&with(form.record_at(0) + 7, 1), 24, 23);
        let remainder = form.quota_at(0) + 4;
        expect(&with(remainder, image[place_of(remainder)] ^ 1), 26, 23);
    }
}

/// 28 comes behind 26 and before 25, and is given exactly for what form 1 can't carry.
#[test]
fn what_form_1_can_not_carry_stays() {
    let mut pair = Pair::new();
    let mut seed = Seed::new(SEED);
    let state = sound_in(FORM_1, &mut seed);
    let needed = FORM_1.length(state.heap.len());
    let mut expect = |change: &dyn Fn(&mut State), carried: bool| {
        let mut changed = state.clone();
        change(&mut changed);
        let image = image_of(&mut pair, FORM_2, &changed).expect("no difference");
        let (enough, short) = if carried { (0, 25) } else { (28, 28) };
        assert_eq!(refusal(&mut pair, FORM_2, &image, needed), enough);
        assert_eq!(refusal(&mut pair, FORM_2, &image, needed - 1), short);
        assert_eq!(refusal(&mut pair, FORM_2, &image, 0), short);
    };
    expect(&|_| {}, true);
    for number in 0..QUOTAS {
        let more = |state: &mut State| {
            let quota = &mut state.accounts.quotas[number];
            quota.grant -= quota.remainder;
            quota.remainder = 1;
            quota.grant += 1;
        };
        expect(&more, number < FORM_1.quotas);
        let less = |state: &mut State| state.accounts.quotas[number].permissions = 6;
        expect(&less, false);
    }
    expect(&|state: &mut State| state.accounts.kind = 1, false);
    expect(&|state: &mut State| state.accounts.edition = 1, false);
    let used = (0..FORM_1.records).find(|place| state.accounts.holds[*place].is_used());
    for place in used.into_iter().flat_map(|_| FORM_1.records..HOLDS) {
        let swap = |state: &mut State| state.accounts.holds.swap(used.unwrap_or(0), place);
        expect(&swap, false);
    }
}

#[test]
fn every_lent_length_around_the_output() {
    let mut pair = Pair::new();
    for from in FORMS {
        let (state, image) = image(&mut pair, from, 416);
        let needed = from.other().length(state.heap.len());
        for lent in (0..needed + 600).step_by(37).chain(needed - 2..needed + 3) {
            let wanted = if lent < needed { 25 } else { 0 };
            assert_eq!(refusal(&mut pair, from, &image, lent), wanted);
        }
    }
}
