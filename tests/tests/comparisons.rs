//! Images compared by the proved code and by the reference, from fixed seeds.

use lokhazim_reference::{Accounts, Difference, MAX_HEAP, QUOTAS};
use lokhazim_tests::cases::states::Plan;
use lokhazim_tests::judge::forms::{Form, FORMS, FORM_1, FORM_2};
use lokhazim_tests::run::boundary::images::{all_differences, compare, next_difference};
use lokhazim_tests::run::calls::Pair;
use lokhazim_tests::run::comparisons::pairs;
use lokhazim_tests::run::image_cases::image_of;
use lokhazim_tests::seed::Seed;
use lokhazim_tests::state::{Call, State, PLAIN};

/// The seed of every case.
const SEED: u64 = 20_261_117;

#[test]
fn random_pairs_of_images() {
    let mut pair = Pair::new();
    for n in 0..3_000 {
        pairs(&mut pair, SEED, n).unwrap_or_else(|failure| panic!("{failure}"));
    }
    println!("{}", pair.tally);
    assert!(pair.tally.images("compared", 0) >= 2_000);
    for number in [21, 22, 23, 24, 26, 27, 29] {
        assert!(pair.tally.images("compared", number) >= 20, "{number}");
    }
}

/// The images of a heap of 128 bytes with one object of this length, and of the same heap changed.
fn changed(
    pair: &mut Pair,
    form: Form,
    length: u32,
    change: impl FnOnce(&mut State),
) -> (Vec<u8>, Vec<u8>) {
    let mut state = State {
        heap: vec![0; 128],
        accounts: Accounts::default(),
    };
    let mut grants = [0; QUOTAS];
    grants[..form.quotas].fill(500);
    for call in [Call::Open(grants, PLAIN), Call::Allocate(0, length)] {
        pair.call(&mut state, call).expect("no difference");
    }
    let first = image_of(pair, form, &state).expect("no difference");
    change(&mut state);
    (first, image_of(pair, form, &state).expect("no difference"))
}

#[test]
fn each_kind_of_difference_by_itself() {
    use Difference::{Bytes, Edition, Kind, LastSerial, Quota, Record};
    let mut pair = Pair::new();
    let mut expect_in = |form: Form, change: &dyn Fn(&mut State), expected: &[Difference]| {
        let (first, second) = changed(&mut pair, form, 120, change);
        assert_eq!(all_differences(&first, &second).as_deref(), Ok(expected));
        pair.compare_images(&first, &second)
            .unwrap_or_else(|failure| panic!("{failure}"));
    };
    for form in FORMS {
        let (quota, record) = (form.quotas - 1, form.records - 1);
        expect_in(
            form,
            &|state: &mut State| state.accounts.holds.swap(0, record),
            &[Record(0), Record(record)],
        );
        let more = |state: &mut State| {
            state.accounts.quotas[quota].grant = 600;
            state.accounts.quotas[quota].remainder = 600;
        };
        expect_in(form, &more, &[Quota(quota)]);
    }
    let quarantines = |state: &mut State| state.accounts.kind = 1;
    expect_in(FORM_2, &quarantines, &[Kind]);
    let second = |state: &mut State| state.accounts.edition = 1;
    expect_in(FORM_2, &second, &[Edition]);
    let both = |state: &mut State| (state.accounts.kind, state.accounts.edition) = (1, 1);
    expect_in(FORM_2, &both, &[Kind, Edition]);
    let all = |state: &mut State| {
        state.accounts.kind = 1;
        state.accounts.edition = 1;
        state.accounts.last_serial = 9;
        state.accounts.quotas[0].permissions = 6;
        state.accounts.holds[0].count = 2;
        state.heap[50] = 1;
    };
    let listed = [LastSerial, Kind, Edition, Quota(0), Record(0), Bytes(50, 1)];
    expect_in(FORM_2, &all, &listed);
    for number in 0..QUOTAS {
        let cleared = |state: &mut State| state.accounts.quotas[number].permissions = 6;
        expect_in(FORM_2, &cleared, &[Quota(number)]);
    }
    let mut expect = |change: fn(&mut State), expected: &[Difference]| {
        expect_in(FORM_1, &change, expected);
        expect_in(FORM_2, &change, expected);
    };
    expect(|_| {}, &[]);
    expect(|state| state.heap[50] = 1, &[Bytes(50, 1)]);
    expect(|state| state.heap[127] = 1, &[Bytes(127, 1)]);
    expect(|state| state.heap[8..].fill(9), &[Bytes(8, 120)]);
    expect(
        |state| state.heap[20..23].copy_from_slice(&[1, 0, 1]),
        &[Bytes(20, 1), Bytes(22, 1)],
    );
    expect(|state| state.accounts.last_serial = 9, &[LastSerial]);
    expect(|state| state.accounts.holds[0].count = 2, &[Record(0)]);
}

#[test]
fn a_run_at_the_first_byte() {
    let mut pair = Pair::new();
    let (first, _) = changed(&mut pair, FORM_2, 40, |_| {});
    let (second, _) = changed(&mut pair, FORM_2, 48, |_| {});
    let all = all_differences(&first, &second).expect("two good images");
    assert_eq!(all[1], Difference::Bytes(0, 1));
    pair.compare_images(&first, &second)
        .unwrap_or_else(|failure| panic!("{failure}"));
}

/// A state of the longest heap with one object that fills it, and every other byte written.
fn striped(byte: u8) -> State {
    let mut seed = Seed::new(SEED);
    let mut state = Plan::new(&mut seed, MAX_HEAP as u32).render(&mut seed);
    let objects: Vec<_> = lokhazim_tests::judge::cut::blocks(&state.heap)
        .into_iter()
        .filter(|block| block.serial != 0)
        .collect();
    for block in objects {
        let (start, end) = (
            block.offset as usize + 8,
            (block.offset + block.size) as usize,
        );
        state.heap[start..end].fill(0);
        state.heap[start..end]
            .iter_mut()
            .step_by(2)
            .for_each(|b| *b = byte);
    }
    state
}

#[test]
fn thousands_of_runs_in_the_longest_heap() {
    let mut pair = Pair::new();
    let (first, second) = (striped(1), striped(2));
    let images =
        [&first, &second].map(|state| image_of(&mut pair, FORM_2, state).expect("no difference"));
    let all = all_differences(&images[0], &images[1]).expect("two good images");
    assert!(all.len() > 1_000, "{}", all.len());
    pair.compare_images(&images[0], &images[1])
        .unwrap_or_else(|failure| panic!("{failure}"));
}

/// Bad images give no difference, however long the heap is that they state (rule 14.11).
#[test]
fn a_bad_image_has_no_next_difference() {
    let mut pair = Pair::new();
    let (first, second) = changed(&mut pair, FORM_2, 120, |state| state.heap[50] = 1);
    let mut flipped = second.clone();
    let last = flipped.len() - 400;
    flipped[last] ^= 1;
    let mut endless = [0; 512];
    endless[8..12].fill(255);
    for (a, b, refused) in [
        (&first[..], &flipped[..], (22, 2)),
        (&flipped, &first, (22, 1)),
        (&endless, &endless, (22, 1)),
        (&first, &endless, (22, 2)),
        (&first, &[], (21, 2)),
    ] {
        assert_eq!(all_differences(a, b), Err(refused));
        assert_eq!(next_difference(a, b, (3, 0)), Err(refused));
        pair.compare_images(a, b)
            .unwrap_or_else(|failure| panic!("{failure}"));
    }
}

/// Images of one state in two forms are not compared (rule 16.9).
#[test]
fn one_state_in_two_forms_is_not_compared() {
    let mut pair = Pair::new();
    let mut seed = Seed::new(SEED);
    let state = Plan::in_form(FORM_1, &mut seed, 128).render(&mut seed);
    let images = FORMS.map(|form| image_of(&mut pair, form, &state).expect("no difference"));
    assert_eq!(compare(&images[0], &images[1], 0), Err((29, 0)));
    assert_eq!(compare(&images[0], &images[0], 0), Ok(None));
    assert_eq!(compare(&images[1], &images[1], 0), Ok(None));
}

/// Two forms are refused by 29 behind every refusal of one image, and before unequal lengths.
#[test]
fn two_forms_come_behind_a_bad_image_and_before_two_lengths() {
    let mut pair = Pair::new();
    let mut seed = Seed::new(SEED);
    let mut image = |form: Form, length: u32| {
        let state = Plan::in_form(form, &mut seed, length).render(&mut seed);
        image_of(&mut pair, form, &state).expect("no difference")
    };
    let (first, second) = (image(FORM_1, 128), image(FORM_2, 128));
    let longer = image(FORM_2, 136);
    let mut damaged = second.clone();
    damaged[600] ^= 1;
    for (a, b, refusal, which) in [
        (&first, &second, 29, 0),
        (&second, &first, 29, 0),
        (&first, &longer, 29, 0),
        (&longer, &first, 29, 0),
        (&second, &longer, 27, 0),
        (&first, &damaged, 22, 2),
        (&damaged, &first, 22, 1),
    ] {
        assert_eq!(compare(a, b, 0), Err((refusal, which)));
        pair.compare_images(a, b)
            .unwrap_or_else(|failure| panic!("{failure}"));
    }
}
