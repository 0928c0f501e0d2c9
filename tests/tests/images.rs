//! Images through the exported boundary and the reference, from fixed seeds.

use lokhazim_reference::{Accounts, HOLDS, MAX_HEAP, MIN_HEAP, QUOTAS};
use lokhazim_tests::cases::harms::HARMS;
use lokhazim_tests::cases::states::{sound_in, Plan};
use lokhazim_tests::judge::compare::Failure;
use lokhazim_tests::judge::cut::{header, put, quarantined, GREATEST_SERIAL, QUARANTINED};
use lokhazim_tests::judge::forms::{
    place_of, put_byte, put_word, Form, EDITION, FORMS, FORM_1, FORM_2, KIND,
};
use lokhazim_tests::judge::tally::Tally;
use lokhazim_tests::run::calls::Pair;
use lokhazim_tests::run::image_cases::{
    every_byte, forged, harmed, image_of, narrow, round_trip, states, OVERFULL,
};
use lokhazim_tests::run::images::lengths_agree;
use lokhazim_tests::seed::Seed;
use lokhazim_tests::state::{Call, State, PLAIN};

/// The seed of every case.
const SEED: u64 = 20_261_116;

/// Compares so many cases and gives what was compared.
fn compare(cases: u64, mut case: impl FnMut(&mut Pair, u64) -> Result<(), Failure>) -> Tally {
    let mut pair = Pair::new();
    for n in 0..cases {
        case(&mut pair, n).unwrap_or_else(|failure| panic!("{failure}"));
    }
    println!("{}", pair.tally);
    pair.tally
}

/// Reads an image into a heap on both sides.
fn read(pair: &mut Pair, image: &[u8], heap: &[u8]) -> (u32, State) {
    pair.read_image(image, heap)
        .unwrap_or_else(|failure| panic!("{failure}"))
}

#[test]
fn states_are_written_and_read_back() {
    let tally = compare(1_500, |pair, n| states(pair, SEED, n));
    for (form, accepted) in [(FORM_1, 250), (FORM_2, 1_500)] {
        let written = |refusal| tally.images(form.written, refusal);
        assert!(written(0) >= accepted && written(25) >= accepted);
        assert!(written(1) >= 100 && written(2) >= 100);
    }
    assert!(tally.images(FORM_1.written, 28) >= 1_500);
    assert_eq!(tally.images(FORM_2.written, 28), 0);
    assert!(tally.images("read", 0) >= 1_800);
}

#[test]
fn form_1_is_refused_exactly_for_what_it_can_not_carry() {
    let tally = compare(1_250, |pair, n| narrow(pair, SEED, n));
    assert!(tally.images(FORM_1.written, 0) >= 1_500);
    assert!(tally.images(FORM_1.written, 28) >= 2_500);
    for (name, _) in OVERFULL {
        assert!(tally.cases.get(name).copied().unwrap_or(0) >= 200, "{name}");
    }
}

#[test]
fn the_longest_heap_is_written_and_read_back() {
    for form in FORMS {
        let tally = compare(4, |pair, n| {
            let mut seed = Seed::of_case(SEED, n);
            let state = Plan::in_form(form, &mut seed, MAX_HEAP as u32).render(&mut seed);
            round_trip(pair, form, &state, &mut seed)
        });
        assert_eq!(tally.images("read", 0), 8);
    }
}

#[test]
fn every_byte_of_a_small_image_is_changed_once() {
    for form in FORMS {
        let tally = compare(4, |pair, n| {
            let mut seed = Seed::of_case(SEED, n);
            let length = [64, 72, 128, 416][n as usize];
            let state = Plan::in_form(form, &mut seed, length).render(&mut seed);
            pair.begin("every byte", SEED, n);
            every_byte(pair, form, &state, &mut seed)
        });
        for number in [22, 23, 24, 26] {
            assert!(tally.images("read", number) >= 10, "{number}");
        }
    }
}

#[test]
fn harmed_images_are_refused_alike() {
    let tally = compare(500 * HARMS.len() as u64, |pair, n| harmed(pair, SEED, n));
    for number in 21..=26 {
        assert!(tally.images("read", number) >= 100, "{number}");
    }
    for harm in &HARMS {
        let name = harm.name;
        assert!(tally.cases.get(name).copied().unwrap_or(0) >= 400, "{name}");
    }
}

#[test]
fn images_of_states_that_are_not_sound_give_26() {
    let tally = compare(3_000, |pair, n| forged(pair, SEED, n));
    assert!(tally.images("read", 26) >= 1_500 && tally.images("read", 24) >= 20);
}

/// Every entry of form 2 (rule 16.5): each number for its permissions, and each spare byte.
#[test]
fn permission_bytes_and_spare_bytes_of_every_quota() {
    let mut pair = Pair::new();
    let mut seed = Seed::new(SEED);
    let state = Plan::in_form(FORM_2, &mut seed, 64).render(&mut seed);
    let image = image_of(&mut pair, FORM_2, &state).expect("no difference");
    for number in 0..QUOTAS {
        for bits in 0..=255 {
            let mut changed = image.clone();
            put_byte(&mut changed, FORM_2.quota_at(number) + 8, bits);
            let (refusal, read) = read(&mut pair, &changed, &state.heap);
            assert_eq!(refusal, if bits <= 7 { 0 } else { 24 }, "{number} {bits}");
            if refusal == 0 {
                assert_eq!(read.accounts.quotas[number].permissions, bits);
            }
        }
        for spare in 9..12 {
            let mut changed = image.clone();
            put_byte(&mut changed, FORM_2.quota_at(number) + spare, 1);
            assert_eq!(read(&mut pair, &changed, &state.heap).0, 24, "{number}");
        }
    }
}

/// Every record of both forms: each of its two spare bytes.
#[test]
fn spare_bytes_of_every_record() {
    let mut pair = Pair::new();
    let mut seed = Seed::new(SEED);
    for form in FORMS {
        let state = Plan::in_form(form, &mut seed, 64).render(&mut seed);
        let image = image_of(&mut pair, form, &state).expect("no difference");
        for (place, spare) in (0..form.records).flat_map(|place| [(place, 6), (place, 7)]) {
            let mut changed = image.clone();
            put_byte(&mut changed, form.record_at(place) + spare, 0x80);
            assert_eq!(read(&mut pair, &changed, &state.heap).0, 24, "{place}");
        }
    }
}

/// A form's number on the other's stream, and other numbers.
#[test]
fn the_form_decides_how_the_rest_is_read() {
    let mut pair = Pair::new();
    let mut seed = Seed::new(SEED);
    for form in FORMS {
        let state = Plan::in_form(FORM_1, &mut seed, 64).render(&mut seed);
        let image = image_of(&mut pair, form, &state).expect("no difference");
        let mut other = image.clone();
        put_byte(&mut other, 0, form.other().number as u8);
        assert_eq!(read(&mut pair, &other, &state.heap).0, 24);
        for (place, byte) in [(0, 0), (0, 3), (1, 1), (2, 2), (2, 255), (3, 2), (3, 255)] {
            let mut changed = image.clone();
            put_byte(&mut changed, place, byte);
            assert_eq!(
                read(&mut pair, &changed, &state.heap).0,
                23,
                "{place} {byte}"
            );
        }
    }
}

/// Every number for the kind in both forms: of a plain heap, of one with quarantine and nothing in it,
/// and of one with quarantined blocks.
#[test]
fn every_byte_of_the_kind() {
    let mut pair = Pair::new();
    let mut plain = example(&mut pair);
    let mut empty = plain.clone();
    empty.accounts.kind = 1;
    let mut waiting = empty.clone();
    put(&mut waiting.heap, 0, header(24, 0, QUARANTINED));
    put(&mut waiting.heap, 24, header(16, 24, QUARANTINED));
    put(&mut waiting.heap, 40, header(24, 16, 0));
    for (form, state) in [
        (FORM_1, &mut plain.clone()),
        (FORM_2, &mut plain),
        (FORM_2, &mut empty),
        (FORM_2, &mut waiting),
    ] {
        let image = image_of(&mut pair, form, state).expect("no difference");
        assert_eq!(image[place_of(KIND)], state.accounts.kind);
        for kind in 0..=255 {
            let mut changed = image.clone();
            put_byte(&mut changed, KIND, kind);
            let wanted = match kind {
                0 if quarantined(&state.heap).is_empty() => 0,
                0 => 26,
                1 if form == FORM_2 => 0,
                _ => 23,
            };
            let (refusal, read) = read(&mut pair, &changed, &state.heap);
            assert_eq!(refusal, wanted, "{kind}");
            state.accounts.kind = kind;
            if refusal == 0 {
                assert_eq!(&read, state);
            }
        }
    }
}

/// Every number for the edition in both forms: of a heap that both editions take, and of one with an
/// object that the first alone takes.
#[test]
fn every_byte_of_the_edition() {
    let mut pair = Pair::new();
    let both = example(&mut pair);
    let mut first = Plan::of_object(4_168, 8, 4_096).render(&mut Seed::new(SEED));
    first.accounts.quotas[FORM_1.quotas..].fill(both.accounts.quotas[2]);
    for (form, state) in FORMS.into_iter().flat_map(|f| [(f, &both), (f, &first)]) {
        let image = image_of(&mut pair, form, state).expect("no difference");
        for edition in 0..=255 {
            let mut changed = image.clone();
            put_byte(&mut changed, EDITION, edition);
            let wanted = match edition {
                0 => 0,
                1 if form == FORM_1 => 23,
                1 if state == &first => 26,
                1 => 0,
                _ => 23,
            };
            let (refusal, read) = read(&mut pair, &changed, &state.heap);
            assert_eq!(refusal, wanted, "{edition}");
            if refusal == 0 {
                let mut state = state.clone();
                state.accounts.edition = edition;
                assert_eq!(read, state);
                let again = image_of(&mut pair, form, &read).expect("no difference");
                assert_eq!(again, changed);
            }
        }
    }
}

/// Form 1 carries no heap with quarantine and none of the second edition, whatever is in it, and 28
/// comes before 25.
#[test]
fn form_1_has_plain_heaps_of_the_first_edition_alone() {
    let mut pair = Pair::new();
    let mut state = example(&mut pair);
    let needed = FORM_1.length(state.heap.len());
    for marks in [(1, 0), (0, 1), (1, 1)] {
        (state.accounts.kind, state.accounts.edition) = marks;
        for lent in [0, needed - 1, needed] {
            let written = pair.write_image(FORM_1, &state, &vec![5; lent]);
            assert_eq!(written.unwrap_or_else(|f| panic!("{f}")).0, 28, "{lent}");
        }
    }
}

/// The greatest last serial is read, and the one above it is not consistent.
#[test]
fn the_last_serial_of_an_image() {
    let mut pair = Pair::new();
    let state = example(&mut pair);
    for form in FORMS {
        let image = image_of(&mut pair, form, &state).expect("no difference");
        for (serial, refusal) in [(GREATEST_SERIAL, 0), (QUARANTINED, 26)] {
            let mut changed = image.clone();
            put_word(&mut changed, 8, serial);
            assert_eq!(read(&mut pair, &changed, &state.heap).0, refusal);
        }
    }
}

/// Rule 16.7.
#[test]
fn what_form_1_lacks_is_zero_and_permitted() {
    let mut pair = Pair::new();
    let mut seed = Seed::new(SEED);
    for _ in 0..50 {
        let state = sound_in(FORM_1, &mut seed);
        let image = image_of(&mut pair, FORM_1, &state).expect("no difference");
        let (refusal, restored) = read(&mut pair, &image, &state.heap);
        assert_eq!((refusal, &restored), (0, &state));
        let accounts = &restored.accounts;
        assert!(accounts.quotas.iter().all(|quota| quota.permissions == 7));
        assert_eq!((accounts.kind, accounts.edition), (0, 0));
        let quotas = &accounts.quotas[FORM_1.quotas..QUOTAS];
        assert!(quotas.iter().all(|q| (q.grant, q.remainder) == (0, 0)));
        assert!(accounts.holds[FORM_1.records..HOLDS]
            .iter()
            .all(|hold| !hold.is_used()));
    }
}

/// The heap of the examples 13.20 and 16.8.
fn example(pair: &mut Pair) -> State {
    let mut state = State {
        heap: vec![9; 64],
        accounts: Accounts::default(),
    };
    let mut grants = [0; QUOTAS];
    grants[..2].copy_from_slice(&[100, 1_000]);
    let opened = pair.call(&mut state, Call::Open(grants, PLAIN));
    assert!(opened.is_ok_and(|answer| answer.is_accepted()));
    state
}

#[test]
fn the_example_in_form_1() {
    let mut pair = Pair::new();
    let state = example(&mut pair);
    let mut bytes = vec![0; 3 * 512];
    for (place, byte) in [
        (2, 0x03),
        (4, 0x01),
        (8, 0x40),
        (16, 0x64),
        (20, 0x64),
        (24, 0xE8),
        (25, 0x03),
        (28, 0xE8),
        (29, 0x03),
        (512, 0x01),
        (512 + 2, 0x03),
        (1_024, 0x02),
        (1_024 + 2, 0x03),
        (1_024 + 96, 0x08),
    ] {
        bytes[place] = byte;
    }
    bytes[508..512].copy_from_slice(&[0xD9, 0x08, 0x03, 0x00]);
    bytes[1_020..1_024].copy_from_slice(&[0x01, 0x00, 0x03, 0x00]);
    bytes[1_532..].copy_from_slice(&[0x0A, 0x00, 0x03, 0x00]);
    assert_eq!(
        image_of(&mut pair, FORM_1, &state).expect("no difference"),
        bytes
    );
}

#[test]
fn the_example_in_form_2() {
    let mut pair = Pair::new();
    let state = example(&mut pair);
    let mut image = image_of(&mut pair, FORM_2, &state).expect("no difference");
    let entry: Vec<u8> = (12..24).map(|at| image[place_of(at)]).collect();
    assert_eq!(entry, [0x64, 0, 0, 0, 0x64, 0, 0, 0, 7, 0, 0, 0]);
    assert_eq!(image[place_of(392)], 7);
    put_byte(&mut image, 392, 8);
    assert_eq!(read(&mut pair, &image, &state.heap).0, 24);
}

#[test]
fn the_length_of_an_image() {
    let heads = FORMS.map(Form::head);
    assert_eq!(heads, [1_100, 4_492]);
    for length in (0..=MAX_HEAP + 24).chain([65_536, usize::MAX]) {
        let allowed = length % 8 == 0 && (MIN_HEAP..=MAX_HEAP).contains(&length);
        for form in FORMS {
            assert!(lengths_agree(form, length, allowed), "{length}");
        }
    }
    assert_eq!(FORM_1.length(64), 3 * 512);
    assert_eq!(FORM_1.length(412), 3 * 512);
    assert_eq!(FORM_1.length(416), 4 * 512);
    assert_eq!(FORM_2.length(64), 10 * 512);
    assert_eq!(FORM_2.length(548), 10 * 512);
    assert_eq!(FORM_2.length(552), 11 * 512);
}

#[test]
fn every_lent_length_around_the_image() {
    let mut pair = Pair::new();
    let mut seed = Seed::new(SEED);
    for form in FORMS {
        let state = sound_in(form, &mut seed);
        let needed = form.length(state.heap.len());
        for lent in (0..needed + 600).step_by(37).chain(needed - 2..needed + 3) {
            let (refusal, _) = pair
                .write_image(form, &state, &vec![3; lent])
                .unwrap_or_else(|failure| panic!("{failure}"));
            assert_eq!(refusal, if lent < needed { 25 } else { 0 });
        }
    }
}
