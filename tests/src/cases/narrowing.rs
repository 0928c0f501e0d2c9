//! Handles that were narrowed: parts of an object, ranges that are nearly one, and scripts with both.

use lokhazim_reference::Handle;

use crate::cases::script::Script;
use crate::cases::states::heap_length;
use crate::seed::Seed;
use crate::state::Call;

/// Gives the range of the handle's serial with this base and length.
fn range(whole: Handle, base: u32, length: u32) -> Handle {
    Handle {
        base,
        length,
        serial: whole.serial,
    }
}

/// Gives a handle of a part of an object: one byte, all but one, or any.
pub fn narrowed_handle(seed: &mut Seed, whole: Handle) -> Handle {
    let length = whole.length.max(2);
    let (at, bytes) = match seed.below(8) {
        0 => (0, 1),
        1 => (length - 1, 1),
        2 => (0, length - 1),
        3 => (1, length - 1),
        4 => (0, seed.between(1, length)),
        5 => {
            let at = seed.below(length);
            (at, length - at)
        }
        _ => {
            let at = seed.below(length);
            (at, seed.between(1, length - at))
        }
    };
    range(whole, whole.base.wrapping_add(at), bytes)
}

/// Gives a range that is nearly a part of an object: of no byte, with a byte too many in front or
/// behind, beside the object, or with an end that is inside only modulo 2^32.
pub fn beside_handle(seed: &mut Seed, whole: Handle) -> Handle {
    let Handle { base, length, .. } = whole;
    let inside = base.wrapping_add(seed.below(length.max(1)));
    let behind = base.wrapping_add(length);
    let before = base.wrapping_sub(1);
    match seed.below(9) {
        0 => range(whole, inside, 0),
        1 => range(whole, seed.pick(&[base, behind]), 0),
        2 => range(whole, before, 1),
        3 => range(whole, behind, 1),
        4 => range(
            whole,
            before,
            seed.between(1, length.max(1)).wrapping_add(1),
        ),
        5 => range(whole, inside, behind.wrapping_sub(inside).wrapping_add(1)),
        6 => range(whole, behind, seed.pick(&[8, length])),
        7 => range(whole, behind, inside.wrapping_sub(behind)),
        _ => range(whole, inside, 0_u32.wrapping_sub(seed.between(1, 8))),
    }
}

/// Gives a handle of a part of an object in so many of a hundred cases, and else the whole one.
pub fn sometimes_narrowed(seed: &mut Seed, percent: u32, whole: Handle) -> Handle {
    match seed.percent(percent) {
        true => narrowed_handle(seed, whole),
        false => whole,
    }
}

/// Claims, releases and reallocates by handles of parts, and of ranges that are nearly one.
pub fn script(seed: &mut Seed) -> Vec<u8> {
    let length = heap_length(seed);
    let mut script = Script::open_with(length, seed.pick(&[10_000_000, length, length / 2]));
    let longest = (length / 6).max(8);
    for _ in 0..seed.between(2, 8) {
        script.call(Call::Allocate(seed.below(3), seed.between(1, longest)));
    }
    for _ in 0..seed.between(20, 60) {
        let quota = seed.below(3);
        let Some(whole) = seed.any_of(&script.live()) else {
            script.call(Call::Allocate(quota, seed.between(1, longest)));
            continue;
        };
        let handle = match seed.below(4) {
            0 => beside_handle(seed, whole),
            _ => narrowed_handle(seed, whole),
        };
        match seed.below(8) {
            0 | 1 => script.call(Call::Allocate(quota, seed.between(1, longest))),
            2..=4 => script.call(Call::Claim(quota, handle)),
            5 => script.call(Call::Reallocate(
                quota,
                seed.pick(&[whole, handle]),
                seed.between(0, longest),
            )),
            _ => script.release(handle),
        };
    }
    script.text
}
