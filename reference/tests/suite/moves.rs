//! Images moved between the forms: what comes out, the order of refusals, and there and back.

use crate::images::{seal, with};
use crate::prng::Prng;
use crate::state::*;
use lokhazim_reference::*;

/// Writes an image into enough bytes and gives what was written.
type Writer = fn(&mut [u8], &[u8], &Accounts) -> Result<usize, ImageRefusal>;

/// A move from one form to the other.
type Move = fn(&[u8], &mut [u8]) -> Result<usize, ImageRefusal>;

/// The image that a writer makes of a state.
fn image(writer: Writer, state: &State) -> Vec<u8> {
    let mut image = vec![0xCC; 80 * 512];
    let length = writer(&mut image, &state.heap, &state.accounts).expect("it is written");
    image.truncate(length);
    image
}

/// What a move makes of an image, or the number of its refusal, with so many lent bytes.
fn moved(by: Move, image: &[u8], lent: usize) -> Result<Vec<u8>, u8> {
    let mut output = vec![0xDD; lent];
    match by(image, &mut output) {
        Ok(length) => {
            assert!(output[length..].iter().all(|byte| *byte == 0xDD));
            output.truncate(length);
            Ok(output)
        }
        Err(refusal) => {
            assert!(output.iter().all(|byte| *byte == 0xDD), "it wrote");
            Err(refusal.number())
        }
    }
}

/// A heap of 64 bytes with an object that quotas 0 and 7 hold, by records at places 0 and 127.
fn small() -> State {
    let mut state = opened(64, &[100, 1_000, 0, 0, 0, 0, 0, 900]);
    let object = state.allocated(0, 10);
    state.number(Call::Claim(7, object));
    state.accounts.holds.swap(1, 127);
    state.heap[8..24].fill(0x5A);
    state
}

#[test]
fn up_gives_the_image_of_form_2_and_down_that_of_form_1() {
    let state = small();
    let (one, two) = (image(write_form_1, &state), image(write_image, &state));
    assert_eq!((one.len(), two.len()), (1_536, 5_120));
    assert_eq!(moved(move_up, &one, 5_120), Ok(two.clone()));
    assert_eq!(moved(move_up, &one, 6_000), Ok(two.clone()));
    assert_eq!(moved(move_down, &two, 1_536), Ok(one.clone()));
    assert_eq!(moved(move_down, &two, 1_537), Ok(one));
}

#[test]
fn what_went_up_reads_as_the_same_state() {
    let state = small();
    let up = moved(move_up, &image(write_form_1, &state), 9_999).expect("it is moved");
    let mut heap = vec![0; 64];
    let accounts = read_image(&up, &mut heap).expect("the image is good");
    assert!(State { heap, accounts } == state);
}

#[test]
fn the_other_form_gives_23_before_24() {
    let state = small();
    let (one, two) = (image(write_form_1, &state), image(write_image, &state));
    assert_eq!(moved(move_up, &two, 9_999), Err(23));
    assert_eq!(moved(move_down, &one, 9_999), Err(23));
    assert_eq!(moved(move_up, &with(&two, 8, 65), 0), Err(23));
    assert_eq!(moved(move_down, &with(&one, 8, 65), 0), Err(23));
    for (by, own) in [(move_up as Move, &one), (move_down, &two)] {
        for form in [0, 3, 255] {
            assert_eq!(moved(by, &with(own, 4, form), 0), Err(23));
        }
        assert_eq!(moved(by, &with(own, 6, 2), 0), Err(23));
        assert_eq!(moved(by, &with(own, 7, 2), 0), Err(23));
    }
}

#[test]
fn the_readers_refusals_come_before_25() {
    let state = small();
    let (one, two) = (image(write_form_1, &state), image(write_image, &state));
    for (by, own) in [(move_up as Move, &one), (move_down, &two)] {
        assert_eq!(moved(by, &[], 0), Err(21));
        assert_eq!(moved(by, &own[..own.len() - 1], 0), Err(21));
        assert_eq!(moved(by, &own[..own.len() - 512], 0), Err(22));
        assert_eq!(moved(by, &with(own, 8, 65), 0), Err(24));
        assert_eq!(moved(by, &with(own, 8, 72), 0), Err(26));
        assert_eq!(moved(by, &with(own, 16, 0), 0), Err(26));
        assert_eq!(moved(by, own, 0), Err(25));
    }
    assert_eq!(moved(move_down, &with(&two, 24, 8), 0), Err(24));
    assert_eq!(moved(move_up, &one, 5_119), Err(25));
    assert_eq!(moved(move_down, &two, 1_535), Err(25));
}

#[test]
fn down_gives_28_where_form_1_has_no_room() {
    let two = image(write_image, &small());
    let granted = {
        let mut image = two.clone();
        for place in [16 + 12 * 8, 20 + 12 * 8] {
            image[place] = 1;
        }
        seal(&mut image);
        image
    };
    let cleared = with(&two, 24 + 12 * 31, 3);
    let mut far = small();
    far.accounts.holds.swap(127, 128);
    let far = image(write_image, &far);
    for state in [granted, cleared, far] {
        assert_eq!(moved(move_down, &state, 9_999), Err(28));
        assert_eq!(moved(move_down, &state, 0), Err(28), "before 25");
        assert_eq!(moved(move_down, &with(&state, 16, 0), 0), Err(26));
    }
}

/// Makes a state by calls, sometimes with what form 1 has no room for.
fn any_state(prng: &mut Prng) -> State {
    let quotas = prng.pick(&[1, 8, 8, 9, 32]);
    let grants: Vec<u32> = (0..quotas).map(|_| prng.pick(&[0, 90, 5_000])).collect();
    let mut state = opened(prng.pick(&[64, 400, 408, 4_096]), &grants);
    let mut handles = vec![Handle::default()];
    for _ in 0..prng.below(300) {
        let quota = prng.below(quotas);
        let handle = prng.pick(&handles);
        let allocate = Call::Allocate(quota, 1 + prng.below(40));
        let calls = [
            allocate,
            Call::Claim(quota, handle),
            Call::Release(quota, handle),
        ];
        let call = prng.pick(&[calls[0], calls[1], calls[1], calls[2]]);
        if let Ok(Answer::Object(new)) = state.perform(call) {
            handles.push(new);
        }
    }
    if prng.percent(10) {
        state.number(Call::ClearPermissions(prng.below(32), 1 + prng.below(7)));
    }
    state
}

#[test]
fn there_and_back_gives_the_same_bytes() {
    let mut prng = Prng::new(31);
    let (mut accepted, mut refused) = (0, 0);
    for _ in 0..200 {
        let state = any_state(&mut prng);
        let two = image(write_image, &state);
        let mut bytes = vec![0; 80 * 512];
        match write_form_1(&mut bytes, &state.heap, &state.accounts) {
            Ok(length) => {
                let one = bytes[..length].to_vec();
                assert!(moved(move_up, &one, 80 * 512) == Ok(two.clone()));
                assert!(moved(move_down, &two, 80 * 512) == Ok(one));
                accepted += 1;
            }
            Err(refusal) => {
                assert_eq!(refusal.number(), 28);
                assert_eq!(moved(move_down, &two, 80 * 512), Err(28));
                refused += 1;
            }
        }
    }
    assert!(accepted > 30 && refused > 30, "{accepted} and {refused}");
}
