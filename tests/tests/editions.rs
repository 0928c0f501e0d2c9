//! Both editions of the rounding table (rules, section 23), on both sides of each line: the proved code
//! and the reference answer alike, and as the rules say. Requests of every length are in `requests.rs`,
//! objects of every length in `units.rs`, images in `images.rs`.

use lokhazim_reference::{Handle, MAX_HEAP, QUOTAS};
use lokhazim_tests::cases::states::{sound, Plan};
use lokhazim_tests::judge::cut::{header, put, QUARANTINED};
use lokhazim_tests::judge::ledger::unit;
use lokhazim_tests::judge::rules::{broken, Sentence};
use lokhazim_tests::run::calls::Pair;
use lokhazim_tests::run::unsound::check_is_the_judges;
use lokhazim_tests::run::wanted::Run;
use lokhazim_tests::seed::Seed;
use lokhazim_tests::state::{Call, Choice, State, EDITIONS, PLAIN, SECOND};

/// The seed of the states.
const SEED: u64 = 20_261_117;

/// Makes the check of a state on both sides and holds it to the harness's own reading.
fn judged_alike(pair: &mut Pair, state: &State) {
    check_is_the_judges(pair, state).unwrap_or_else(|failure| panic!("{failure}"));
}

/// Objects side by side in a heap of each edition, and what then is left of the quota.
#[test]
fn the_same_requests_in_both_editions() {
    let requests = [4_088, 4_089, 8_177, 100, 8_178];
    let first: [&[u64]; 5] = [
        &[8, 4_088, 1],
        &[4_104, 4_096, 2],
        &[8_208, 8_184, 3],
        &[16_400, 104, 4],
        &[16_512, 8_184, 5],
    ];
    let second: [&[u64]; 5] = [
        &[8, 4_088, 1],
        &[4_112, 4_096, 2],
        &[8_224, 8_192, 3],
        &[16_424, 104, 4],
        &[16_544, 8_192, 5],
    ];
    for (choice, wanted) in [(PLAIN, first), (SECOND, second)] {
        let mut run = Run::open(MAX_HEAP, choice);
        let mut left = 1_000_000;
        for (request, numbers) in requests.into_iter().zip(wanted) {
            run.gives(Call::Allocate(0, request), numbers);
            left -= numbers[1] + 8;
        }
        run.gives(Call::Remaining(0), &[left]);
    }
}

/// Each row of the second edition by an allocation, an array, a reallocation and a claim.
#[test]
fn every_call_rounds_by_the_heaps_own_edition() {
    for (request, length, unit) in [
        (4_088, 4_088, 8),
        (4_090, 4_096, 16),
        (8_178, 8_192, 32),
        (16_354, 16_384, 64),
    ] {
        let charge = u64::from(length) + 8;
        let mut run = Run::open(MAX_HEAP, SECOND);
        run.gives(Call::Allocate(0, request), &[unit, length.into(), 1]);
        let handle = Handle {
            base: unit as u32,
            length,
            serial: 1,
        };
        run.gives(Call::Claim(1, handle), &[length.into()]);
        run.gives(Call::Release(0, handle), &[charge]);
        run.gives(Call::FreeAll(1), &[charge]);
        run.gives(Call::Array(0, request / 2, 2), &[unit, length.into(), 2]);
        run.gives(Call::FreeAll(0), &[charge]);
        let short = run.call(Call::Allocate(0, 8)).handle();
        let base = 24_u64.next_multiple_of(unit);
        run.gives(
            Call::Reallocate(0, short, request),
            &[base, length.into(), 4],
        );
    }
}

/// The requests that are rounded to 32,768 bytes: the charge is asked for first, then there is no space.
#[test]
fn requests_that_fit_no_heap() {
    for (choice, from) in [(PLAIN, 32_737), (SECOND, 32_705)] {
        let mut run = Run::open(MAX_HEAP, choice);
        for request in from..=32_760 {
            run.refuses(Call::Allocate(0, request), 11);
        }
        run.gives(Call::Open([32_775; QUOTAS], choice), &[]);
        for request in from..=32_760 {
            run.refuses(Call::Allocate(0, request), 8);
        }
        let (unit, length) = (u64::from(unit(choice.edition as u8, from - 1)), from - 1);
        run.gives(Call::Allocate(0, length), &[unit, length.into(), 1]);
    }
}

/// Any number but 0 opens in the second edition, and the accounts then have 1, whatever the kind.
#[test]
fn editions_of_an_opening() {
    for (number, edition) in [(0, 0), (1, 1), (2, 1), (255, 1), (256, 1), (u32::MAX, 1)] {
        for kind in [0, 1] {
            Run::opens_with(Choice::of(kind, number), kind as u8, edition);
        }
    }
}

/// Every number for the edition: of a fresh heap, of one that both editions take, and of one that the
/// first alone takes.
#[test]
fn every_number_of_the_edition_is_judged_alike() {
    let mut pair = Pair::new();
    let fresh = Run::open(64, PLAIN).state;
    let mut seed = Seed::new(SEED);
    let both = Plan::of_object(8_192, 16, 4_096).render(&mut seed);
    let first = Plan::of_object(8_192, 8, 4_096).render(&mut seed);
    for (state, second) in [(&fresh, true), (&both, true), (&first, false)] {
        for edition in 0..=255 {
            let mut changed = state.clone();
            changed.accounts.edition = edition;
            let expected: &[Sentence] = match edition {
                0 => &[],
                1 if second => &[],
                1 => &[Sentence::Units],
                _ => &[Sentence::Edition],
            };
            assert_eq!(broken(&changed), expected, "{edition}");
            judged_alike(&mut pair, &changed);
            let refusal = if expected.is_empty() { 0 } else { 2 };
            for call in [Call::Check, Call::Sweep, Call::Remaining(0)] {
                let answer = Run::on(changed.clone()).call(call);
                assert_eq!(answer.refusal, refusal, "{edition} {call}");
            }
        }
    }
}

/// A heap that was made in one edition is taken up in the other where its objects fit both.
#[test]
fn heaps_that_one_edition_takes_and_the_other_does_not() {
    for (request, taken) in [
        (4_088, true),
        (4_089, false),
        (8_177, false),
        (16_353, false),
    ] {
        let mut run = Run::open(MAX_HEAP, PLAIN);
        run.call(Call::Allocate(0, 8));
        run.call(Call::Allocate(0, request));
        run.state.accounts.edition = 1;
        let answer = run.call(Call::Check);
        assert_eq!(answer.refusal, if taken { 0 } else { 2 }, "{request}");

        // The units of the second edition are multiples of the first's.
        let mut run = Run::open(MAX_HEAP, SECOND);
        run.call(Call::Allocate(0, 8));
        run.call(Call::Allocate(0, request));
        run.state.accounts.edition = 0;
        run.gives(Call::Check, &[]);
    }
}

/// Any consistent state with the other edition's number, which is consistent or not by its objects.
#[test]
fn states_with_the_other_editions_number() {
    let (mut pair, mut refused) = (Pair::new(), [0, 0]);
    for n in 0..1_500 {
        pair.begin("edition", SEED, n);
        let mut seed = Seed::of_case(SEED, n);
        let mut state = match n % 4 {
            0 => Plan::new(&mut seed, MAX_HEAP as u32).render(&mut seed),
            _ => sound(&mut seed),
        };
        let old = usize::from(state.accounts.edition);
        state.accounts.edition ^= 1;
        judged_alike(&mut pair, &state);
        refused[old] += u32::from(!broken(&state).is_empty());
    }
    println!("refused with the other number, by the state's own: {refused:?}");
    assert!(refused[0] >= 50, "{refused:?}");
    assert_eq!(refused[1], 0, "the second edition's units are multiples");
}

/// Quarantined blocks stand anywhere, whatever unit an object there would have in either edition.
#[test]
fn units_do_not_bind_quarantined_blocks() {
    for edition in EDITIONS.map(|choice| choice.edition) {
        for (front, size) in [(8, 4_104), (8, 8_200), (16, 16_400), (32, 32_736)] {
            let mut run = Run::open(MAX_HEAP, Choice::of(1, edition));
            let heap = &mut run.state.heap;
            let rest = MAX_HEAP as u32 - front - size;
            put(heap, 0, header(front, 0, 0));
            put(heap, front, header(size, front, QUARANTINED));
            if rest > 0 {
                put(heap, front + size, header(rest, size, 0));
            }
            run.gives(Call::Sweep, &[size.into()]);
            run.has(&[(MAX_HEAP as u32, 0)]);
        }
    }
}
