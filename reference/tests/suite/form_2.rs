//! Images of form 2: a worked example, both readers, and what form 1 has no room for.

use crate::images::{refused, seal, with};
use crate::state::*;
use lokhazim_reference::*;

/// A fresh heap of 64 bytes with grants of 100 and 1,000, and its image.
fn example() -> (State, Vec<u8>) {
    let state = opened(64, &[100, 1_000]);
    let mut image = vec![0; 5_120];
    let answer = write_image(&mut image, &state.heap, &state.accounts);
    assert_eq!(answer, Ok(5_120));
    (state, image)
}

/// The image of a state in form 1, or the number of the refusal.
fn form_1_of(state: &State) -> Result<Vec<u8>, u8> {
    let mut image = vec![0; image_length_form_1(state.heap.len())];
    let answer = write_form_1(&mut image, &state.heap, &state.accounts);
    answer.map(|_| image).map_err(ImageRefusal::number)
}

/// The state that an image is read as.
fn read(image: &[u8], heap_bytes: usize) -> State {
    let mut heap = vec![6; heap_bytes];
    let accounts = read_image(image, &mut heap).expect("the image is good");
    State { heap, accounts }
}

/// The place in the image of a byte of the stream.
fn place_of(stream_byte: usize) -> usize {
    512 * (stream_byte / 504) + 4 + stream_byte % 504
}

#[test]
fn the_worked_example_byte_by_byte() {
    let mut expected = vec![0_u8; 5_120];
    for block in 0..10 {
        let at = 512 * block;
        expected[at] = block as u8;
        expected[at + 2] = 10;
        expected[at + 508] = block as u8;
        expected[at + 510] = 10;
    }
    for quota in 0..32 {
        expected[24 + 12 * quota] = 7;
    }
    for (place, byte) in [
        (4, 2),
        (8, 0x40),
        (16, 0x64),
        (20, 0x64),
        (28, 0xE8),
        (29, 0x03),
        (32, 0xE8),
        (33, 0x03),
        (508, 0xBA),
        (509, 0x09),
        (4_560, 8),
        (4_604, 0x10),
    ] {
        expected[place] = byte;
    }
    assert_eq!(example().1, expected);
}

#[test]
fn lengths_of_both_forms() {
    for (heap_bytes, blocks) in [(64, 10), (544, 10), (552, 11), (32_768, 74)] {
        assert_eq!(image_length(heap_bytes), 512 * blocks);
    }
    for (heap_bytes, blocks) in [(64, 3), (408, 3), (416, 4), (32_768, 68)] {
        assert_eq!(image_length_form_1(heap_bytes), 512 * blocks);
    }
}

#[test]
fn what_is_written_is_read_back_with_permissions() {
    let mut state = opened(2_048, &[900; 32]);
    for quota in 0..32 {
        state.allocated(quota, 8 + 8 * (quota % 3));
        state.number(Call::ClearPermissions(quota, quota));
    }
    state.accounts.holds.reverse();
    let mut image = vec![3; image_length(2_048) + 5];
    let length = write_image(&mut image, &state.heap, &state.accounts);
    assert_eq!(length, Ok(image_length(2_048)));
    assert_eq!(image[image_length(2_048)..], [3; 5]);
    assert!(read(&image[..image_length(2_048)], 2_048) == state);
}

#[test]
fn the_writers_refusals() {
    let (state, _) = example();
    let number = |image: &mut [u8], heap: &[u8]| {
        write_image(image, heap, &state.accounts).map_err(ImageRefusal::number)
    };
    let mut short = [5; 5_119];
    assert_eq!(number(&mut short, &state.heap), Err(25));
    assert_eq!(number(&mut short, &state.heap[..56]), Err(1));
    assert_eq!(number(&mut [], &[0; 64]), Err(2));
    assert_eq!(short, [5; 5_119]);
}

#[test]
fn the_readers_refusals_in_their_order() {
    let image = example().1;
    assert_eq!(refused(&image[..5_119], 64), 21);
    assert_eq!(refused(&image[..4_608], 64), 22);
    assert_eq!(refused(&with(&image, 4, 3), 64), 23);
    assert_eq!(refused(&with(&image, 5, 2), 64), 23);
    assert_eq!(refused(&with(&image, 6, 2), 64), 23);
    assert_eq!(refused(&with(&image, 7, 2), 64), 23);
    assert_eq!(refused(&with(&image, 4, 1), 64), 24, "form 1 is shorter");
    assert_eq!(refused(&with(&image, 8, 65), 64), 24);
    assert_eq!(refused(&with(&image, place_of(4_491), 1), 64), 24);
    assert_eq!(refused(&with(&image, place_of(4_490), 1), 64), 24);
    assert_eq!(refused(&with(&image, place_of(4_556), 1), 64), 24);
    assert_eq!(refused(&with(&image, 8, 72), 64), 25);
    assert_eq!(refused(&image, 72), 25);
    assert_eq!(refused(&with(&image, 8, 72), 72), 26);
    assert_eq!(refused(&with(&image, place_of(4_489), 1), 64), 26);
    assert_eq!(refused(&with(&image, 16, 101), 64), 26);
}

#[test]
fn permission_bytes_above_7_and_bytes_behind_them_give_24() {
    let image = example().1;
    for quota in [0, 1, 30, 31] {
        let place = place_of(12 + 12 * quota + 8);
        for byte in [8, 15, 128, 255] {
            assert_eq!(refused(&with(&image, place, byte), 64), 24);
            assert_eq!(refused(&with(&image, place, byte), 72), 24, "before 25");
        }
        for behind in 1..4 {
            assert_eq!(refused(&with(&image, place + behind, 1), 64), 24);
        }
        for byte in 0..8 {
            let state = read(&with(&image, place, byte), 64);
            assert_eq!(state.accounts.quotas[quota].permissions, byte);
        }
    }
    let mut both = with(&image, 16, 101);
    both[24] = 8;
    seal(&mut both);
    assert_eq!(refused(&both, 64), 24, "before 26");
}

#[test]
fn form_1_is_read_with_zero_in_new_places_and_all_permissions() {
    let mut state = opened(128, &[500, 0, 0, 0, 0, 0, 0, 400]);
    let object = state.allocated(7, 16);
    state.number(Call::Claim(0, object));
    state.accounts.holds.swap(1, 127);
    let image = form_1_of(&state).expect("form 1 has room for it");
    assert_eq!(image.len(), 3 * 512);
    let found = read(&image, 128);
    assert!(found == state);
    assert!(found.accounts.quotas.iter().all(|q| q.permissions == 7));
    assert_eq!(found.accounts.quotas[8].grant, 0);
    for (quota, number) in [(8, 26), (31, 26), (32, 26)] {
        let record_quota = place_of(76 + 4);
        assert_eq!(refused(&with(&image, record_quota, quota), 128), number);
    }
}

/// Changes a heap with two objects of quotas 0 and 7 and gives form 1's refusal, if any.
fn refusal_after(change: impl FnOnce(&mut State)) -> Option<u8> {
    let mut state = opened(128, &[500, 0, 0, 0, 0, 0, 0, 500]);
    state.allocated(0, 16);
    state.allocated(7, 16);
    change(&mut state);
    assert_eq!(check(&state.heap, &state.accounts), Ok(()));
    form_1_of(&state).err()
}

/// Gives a quota a grant of which nothing is used.
fn grant(state: &mut State, quota: usize, amount: u32) {
    state.accounts.quotas[quota].grant += amount;
    state.accounts.quotas[quota].remainder += amount;
}

#[test]
fn form_1_has_room_for_8_quotas_and_128_records_with_all_permissions() {
    assert_eq!(refusal_after(|_| {}), None);
    for quota in 0..32 {
        let number = (quota >= 8).then_some(28);
        assert_eq!(refusal_after(|s| grant(s, quota, 1)), number);
        let cleared = refusal_after(|s| s.accounts.quotas[quota].permissions = 6);
        assert_eq!(cleared, Some(28));
    }
    for place in 2..HOLDS {
        let number = (place >= 128).then_some(28);
        assert_eq!(refusal_after(|s| s.accounts.holds.swap(1, place)), number);
    }
    let spent = refusal_after(|s| {
        grant(s, 8, 24);
        let handle = handle(32, 16, 2);
        assert_eq!(s.number(Call::Claim(8, handle)), 16);
        assert_eq!(s.remainder(8), 0);
    });
    assert_eq!(spent, Some(28), "a grant with nothing left of it");
}

#[test]
fn form_1s_writer_gives_28_before_25_and_behind_2() {
    let mut state = opened(64, &[1; 9]);
    let number = |image: &mut [u8], state: &State| {
        write_form_1(image, &state.heap, &state.accounts).map_err(ImageRefusal::number)
    };
    assert_eq!(number(&mut [], &state), Err(28));
    let mut image = [4; 1_536];
    assert_eq!(number(&mut image, &state), Err(28));
    assert_eq!(image, [4; 1_536]);
    state.accounts.quotas[8].remainder = 0;
    assert_eq!(number(&mut image, &state), Err(2));
    state.accounts.quotas[8].grant = 0;
    assert_eq!(number(&mut image[..1_535], &state), Err(25));
    assert_eq!(number(&mut image, &state), Ok(1_536));
}
