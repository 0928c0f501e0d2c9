//! Both editions of the table of units: rounding, bases, soundness, images and comparisons.

use crate::images::{refused, with};
use crate::naive;
use crate::state::*;
use lokhazim_reference::Difference::{Edition as EditionDiffers, Kind as KindDiffers, LastSerial};
use lokhazim_reference::*;

/// Requests with alignment and object length in the second edition, on both sides of each row's
/// end.
const SECOND: [(u64, u32, u32); 21] = [
    (1, 8, 8),
    (8, 8, 8),
    (9, 8, 16),
    (4_080, 8, 4_080),
    (4_081, 8, 4_088),
    (4_088, 8, 4_088),
    (4_089, 16, 4_096),
    (4_096, 16, 4_096),
    (4_097, 16, 4_112),
    (8_161, 16, 8_176),
    (8_176, 16, 8_176),
    (8_177, 32, 8_192),
    (8_193, 32, 8_224),
    (16_352, 32, 16_352),
    (16_353, 64, 16_384),
    (16_384, 64, 16_384),
    (16_385, 64, 16_448),
    (32_641, 64, 32_704),
    (32_704, 64, 32_704),
    (32_705, 128, 32_768),
    (32_760, 128, 32_768),
];

/// A heap of this length with one object of quota 0, in an edition of this number.
fn with_object(heap_length: u32, base: u32, length: u32, edition: u8) -> State {
    let pieces = [
        (base - 8, 0),
        (length + 8, 1),
        (heap_length - base - length, 0),
    ];
    let pieces: Vec<Piece> = pieces.into_iter().filter(|piece| piece.0 > 0).collect();
    let mut accounts = accounts_of(&pieces, &[hold(1, 0, 1)], grants(&[90_000]), 1);
    accounts.edition = edition;
    State {
        heap: heap_of(&pieces),
        accounts,
    }
}

/// Tells whether a state is consistent, after judging it both ways.
fn is_sound(state: &State) -> bool {
    let sound = naive::is_sound(&state.heap, &state.accounts);
    assert_eq!(check(&state.heap, &state.accounts).is_ok(), sound);
    sound
}

/// The image of a state in form 2.
fn image(state: &State) -> Vec<u8> {
    let mut image = vec![0; image_length(state.heap.len())];
    let answer = write_image(&mut image, &state.heap, &state.accounts);
    assert_eq!(answer, Ok(image.len()));
    image
}

#[test]
fn the_rows_of_the_second_edition() {
    for (request, alignment, length) in SECOND {
        let rounded = Edition::Second.round(request);
        assert_eq!(rounded, Ok(Rounded { alignment, length }), "{request}");
    }
    for (length, unit) in [(0, 8), (32_768, 128), (u32::MAX, 128)] {
        assert_eq!(Edition::Second.unit_of(length), unit);
    }
}

#[test]
fn requests_that_no_edition_takes() {
    for edition in EDITIONS {
        for request in [0, 32_761, 65_536, 1 << 32, (1 << 32) + 8, u64::MAX] {
            assert_eq!(edition.round(request), Err(Refusal::RequestLength));
        }
    }
}

#[test]
fn every_request_in_both_editions() {
    for edition in EDITIONS {
        for request in 1..=32_760 {
            let rounded = edition.round(u64::from(request)).expect("it is allowed");
            let unit = unit_in(edition, request);
            assert_eq!(edition.unit_of(request), unit);
            assert_eq!(rounded.length, request.div_ceil(unit) * unit);
            assert!((request..request + unit).contains(&rounded.length));
            assert_eq!(rounded.alignment, unit_in(edition, rounded.length));
            assert!(unit.is_multiple_of(8) && rounded.length.is_multiple_of(rounded.alignment));
            if rounded.length <= 32_760 {
                assert_eq!(edition.round(u64::from(rounded.length)), Ok(rounded));
            }
        }
    }
}

#[test]
fn the_functions_without_an_edition_are_the_first_editions() {
    for request in 0..=32_769 {
        assert_eq!(unit_of(request), Edition::First.unit_of(request));
        let request = u64::from(request);
        assert_eq!(round_request(request), Edition::First.round(request));
    }
}

#[test]
fn opening_keeps_the_edition() {
    for (edition, number) in [(Edition::First, 0), (Edition::Second, 1)] {
        let state = opened_with(64, &[7], of_edition(edition));
        assert_eq!((state.accounts.edition, state.accounts.kind), (number, 0));
        assert_eq!(state.heap, heap_of(&[(64, 0)]));
        assert_eq!(Edition::of(number), Some(edition));
        assert_eq!(edition.number(), number);
    }
    assert_eq!(Edition::of(2), None);
    assert_eq!(opened(64, &[]).accounts.edition, 0);
    let (accounts, _) = open_with(&mut [1; 56], grants(&[7]), of_edition(Edition::Second));
    assert_eq!(accounts, Accounts::default());
}

#[test]
fn bases_in_a_fresh_heap_are_the_lowest_multiples() {
    for options in all_options() {
        for (request, ..) in SECOND {
            let mut state = opened_with(32_768, &[90_000], options);
            let rounded = options.edition.round(request).expect("it is allowed");
            let Rounded { alignment, length } = rounded;
            let call = Call::Allocate(0, request as u32);
            if alignment + length > 32_768 {
                state.refused(call, 11);
            } else {
                let expected = handle(alignment, length, 1);
                assert_eq!(state.perform(call), Ok(Answer::Object(expected)));
            }
        }
    }
}

#[test]
fn the_longest_objects_of_the_second_edition() {
    let mut state = opened_with(32_768, &[32_776, 32_775], of_edition(Edition::Second));
    state.refused(Call::Allocate(0, 32_705), 11);
    state.refused(Call::Allocate(1, 32_705), 8);
    state.refused(Call::Array(0, 8_190, 4), 11);
    state.refused(Call::Allocate(0, 32_761), 4);
    assert_eq!(state.allocated(0, 32_704), handle(64, 32_704, 1));
    assert_eq!(state.heap[..8], header(56, 0, 0));
    let mut short = opened_with(32_760, &[90_000], of_edition(Edition::Second));
    short.refused(Call::Allocate(0, 32_704), 11);
}

#[test]
fn reallocate_and_array_go_by_the_heaps_edition() {
    for (edition, array, moved) in [
        (Edition::First, (4_104, 4_104), (8_216, 4_096)),
        (Edition::Second, (4_112, 4_112), (8_240, 4_096)),
    ] {
        let mut state = opened_with(16_384, &[90_000], of_edition(edition));
        let old = state.allocated(0, 4_088);
        let answer = state.perform(Call::Array(0, 1_367, 3));
        assert_eq!(answer, Ok(Answer::Object(handle(array.0, array.1, 2))));
        let answer = state.perform(Call::Reallocate(0, old, 4_089));
        assert_eq!(answer, Ok(Answer::Object(handle(moved.0, moved.1, 3))));
    }
}

#[test]
fn soundness_reads_the_heaps_own_edition() {
    for (base, length, sound) in [
        (8, 8, [true, true]),
        (24, 4_088, [true, true]),
        (8, 4_096, [true, false]),
        (16, 4_096, [true, true]),
        (16, 4_104, [true, false]),
        (16, 4_112, [true, true]),
        (16, 8_176, [true, true]),
        (16, 8_184, [true, false]),
        (16, 8_192, [true, false]),
        (32, 8_192, [true, true]),
        (32, 8_208, [true, false]),
        (16, 16_352, [true, false]),
        (32, 16_352, [true, true]),
        (32, 16_384, [true, false]),
        (64, 16_384, [true, true]),
        (64, 16_416, [true, false]),
        (32, 32_704, [true, false]),
        (64, 32_704, [true, true]),
        (32, 32_736, [true, false]),
        (8, 8_192, [false, false]),
    ] {
        for edition in 0..2 {
            let state = with_object(32_768, base, length, edition);
            let expected = sound[usize::from(edition)];
            assert_eq!(is_sound(&state), expected, "{base} {length} {edition}");
        }
    }
}

#[test]
fn quarantined_blocks_fit_no_unit_in_either_edition() {
    let pieces = [(4_104, u32::MAX), (8_200, u32::MAX), (24, 1), (8, 0)];
    for edition in 0..2 {
        let mut accounts = accounts_of(&pieces, &[hold(1, 0, 1)], grants(&[9]), 1);
        (accounts.kind, accounts.edition) = (1, edition);
        let heap = heap_of(&pieces);
        assert!(is_sound(&State { heap, accounts }));
    }
}

#[test]
fn other_numbers_of_an_edition_are_not_sound() {
    for edition in 0..=255 {
        let mut state = with_object(64, 8, 8, edition);
        assert_eq!(is_sound(&state), edition < 2);
        if edition >= 2 {
            for call in one_of_each(0, handle(8, 8, 1), 8) {
                state.refused(call, 2);
            }
        }
    }
}

#[test]
fn byte_2_of_form_2_holds_the_edition_and_byte_3_the_kind() {
    let plain = image(&opened(64, &[100]));
    for options in all_options() {
        let state = opened_with(64, &[100], options);
        let with_edition = with(&plain, 6, options.edition.number());
        let expected = with(&with_edition, 7, options.kind.number());
        assert_eq!(image(&state), expected);
        let mut heap = vec![6; 64];
        assert_eq!(read_image(&expected, &mut heap), Ok(state.accounts));
        assert_eq!(heap, state.heap);
        for number in 2..=255 {
            assert_eq!(refused(&with(&expected, 6, number), 64), 23);
            assert_eq!(refused(&with(&expected, 7, number), 64), 23);
        }
    }
}

#[test]
fn soundness_of_an_image_is_that_of_its_edition() {
    let first = image(&with_object(8_192, 8, 4_096, 0));
    assert_eq!(refused(&with(&first, 6, 1), 8_192), 26);
    assert_eq!(refused(&with(&first, 6, 1), 8_200), 25);
    let second = with(&image(&with_object(8_192, 16, 4_096, 0)), 6, 1);
    assert_eq!(second, image(&with_object(8_192, 16, 4_096, 1)));
}

#[test]
fn form_1_has_room_for_the_first_edition_alone() {
    for options in all_options() {
        let state = opened_with(64, &[100], options);
        let mut bytes = [9; 1_536];
        let mut number = |length: usize| {
            let answer = write_form_1(&mut bytes[..length], &state.heap, &state.accounts);
            answer.map_err(ImageRefusal::number)
        };
        let fits = options == Options::default();
        assert_eq!(number(0), Err(if fits { 25 } else { 28 }));
        assert_eq!(number(1_536), if fits { Ok(1_536) } else { Err(28) });
        let moved = move_down(&image(&state), &mut bytes).map_err(ImageRefusal::number);
        assert_eq!(moved, if fits { Ok(1_536) } else { Err(28) });
        if fits {
            for number in 1..=255 {
                assert_eq!(refused(&with(&bytes, 6, number), 64), 23);
            }
        }
    }
}

#[test]
fn a_differing_edition_is_listed_after_the_kind() {
    let listed = |a: &State, b: &State| differences(&image(a), &image(b));
    for first in all_options() {
        for second in all_options() {
            let states = [first, second].map(|options| opened_with(64, &[100], options));
            let kind = (first.kind != second.kind).then_some(KindDiffers);
            let edition = (first.edition != second.edition).then_some(EditionDiffers);
            let mut expected: Vec<Difference> = kind.into_iter().chain(edition).collect();
            let [a, mut b] = states;
            assert_eq!(listed(&a, &b), Ok(expected.clone()));
            b.accounts.last_serial = 3;
            b.accounts.quotas[0].grant += 1;
            b.accounts.quotas[0].remainder += 1;
            expected.insert(0, LastSerial);
            expected.push(Difference::Quota(0));
            assert_eq!(listed(&a, &b), Ok(expected));
        }
    }
}
