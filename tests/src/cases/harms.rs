//! What can be wrong with an image, or with the heap that is lent for it.

use crate::judge::forms::{
    place_of, put_byte, put_word, renumber, seal, Form, EDITION, FORMS, FORM_2, FRAME, KIND, PIECE,
    RECORD,
};
use crate::seed::Seed;

/// What is done to an image of a form, and to the heap that is lent for it.
type Way = fn(&mut Seed, Form, &mut Vec<u8>, &mut Vec<u8>);

/// A kind of harm.
pub struct Harm {
    /// What is harmed, in words.
    pub name: &'static str,
    /// The forms that have it.
    pub forms: &'static [Form],
    /// How it is done.
    pub way: Way,
}

/// Makes a harm that both forms can have.
const fn harm(name: &'static str, way: Way) -> Harm {
    let forms = &FORMS;
    Harm { name, forms, way }
}

/// Makes a harm that form 2 alone can have.
const fn of_form_2(name: &'static str, way: Way) -> Harm {
    let forms = &[FORM_2];
    Harm { name, forms, way }
}

/// Every kind of harm.
pub const HARMS: [Harm; 23] = [
    harm("a byte", |seed, _, image, _| flip(seed, image)),
    harm("a byte, sealed", |seed, _, image, _| {
        flip(seed, image);
        seal(image);
    }),
    harm("a frame's number", |seed, _, image, _| {
        flip_front(seed, image, 0)
    }),
    harm("a frame's count", |seed, _, image, _| {
        flip_front(seed, image, 2)
    }),
    harm("the form", |seed, _, image, _| stream_word(seed, image, 0)),
    harm("the byte of the kind", |seed, _, image, _| {
        let any = seed.byte();
        put_byte(image, KIND, seed.pick(&[0, 0, 1, 1, 2, 255, any]));
    }),
    harm("the byte of the edition", |seed, _, image, _| {
        let any = seed.byte();
        put_byte(image, EDITION, seed.pick(&[0, 0, 1, 1, 2, 255, any]));
    }),
    harm("the other form's number", |seed, form, image, heap| {
        let length = form.other().length(heap.len());
        put_word(image, 0, form.other().number);
        if seed.percent(50) {
            // With as many frames as the other form needs.
            image.resize(length, 0);
            renumber(image);
        }
    }),
    harm("the heap's length", |seed, _, image, _| {
        let length = 8 * seed.between(0, 4_200);
        put_word(image, 4, length);
    }),
    harm("a near heap length", |seed, _, image, heap| {
        let near = heap.len() as i64 + 8 * i64::from(seed.below(17)) - 64;
        put_word(image, 4, near.max(0) as u32);
        if seed.percent(50) {
            heap.resize(near.max(0) as usize, 7);
        }
    }),
    harm("the last serial", |seed, _, image, _| {
        stream_word(seed, image, 8)
    }),
    harm("a quota", |seed, form, image, _| {
        let place = form.quota_at(seed.place(form.quotas)) + 4 * seed.place(2);
        stream_word(seed, image, place);
    }),
    of_form_2("a permission byte", |seed, form, image, _| {
        let place = form.quota_at(seed.place(form.quotas)) + 8;
        let above = 8 << seed.below(5);
        put_byte(
            image,
            place,
            seed.pick(&[above, 8, 255, seed.clone().byte()]),
        );
    }),
    of_form_2("a spare byte of a quota", |seed, form, image, _| {
        let place = form.quota_at(seed.place(form.quotas)) + 9 + seed.place(3);
        put_byte(image, place, 1 << seed.below(8));
    }),
    harm("a record", |seed, form, image, _| {
        let place = form.record_at(seed.place(form.records)) + 4 * seed.place(2);
        stream_word(seed, image, place);
    }),
    harm("a spare byte of a record", |seed, form, image, _| {
        let place = form.record_at(seed.place(form.records)) + RECORD - 2 + seed.place(2);
        put_byte(image, place, seed.byte());
    }),
    harm("the padding", |seed, form, image, heap| {
        let carried = image.len() / FRAME * PIECE;
        let used = form.head() + heap.len();
        if used < carried {
            put_byte(image, used + seed.place(carried - used), 1);
        }
    }),
    harm("a heap byte", |seed, form, image, heap| {
        // A first harm may have lent another heap than the image's, or have cut the image.
        let carried = image.len() / FRAME * PIECE;
        let behind = heap.len().min(carried.saturating_sub(form.head()));
        if behind > 0 {
            put_byte(image, form.head() + seed.place(behind), seed.byte());
        }
    }),
    harm("cut short", |seed, _, image, _| {
        image.truncate(seed.place(image.len()))
    }),
    harm("frames dropped", |seed, _, image, _| {
        image.truncate(FRAME * seed.place(image.len() / FRAME));
        renumber(image);
    }),
    harm("frames added", |seed, _, image, _| {
        image.resize(image.len() + FRAME * seed.between(1, 3) as usize, 0);
        if seed.percent(70) {
            renumber(image);
        }
    }),
    harm("frames exchanged", |seed, _, image, _| {
        let frames = image.len() / FRAME;
        let (a, b) = (FRAME * seed.place(frames), FRAME * seed.place(frames));
        for i in 0..FRAME {
            image.swap(a + i, b + i);
        }
        if seed.percent(50) {
            renumber(image);
        }
    }),
    harm("another lent heap", |seed, _, _, heap| {
        heap.resize(
            seed.pick(&[0, 63, 64, heap.len() + 8, heap.len() - 1, 32_768]),
            9,
        )
    }),
];

/// Changes a byte of the image.
fn flip(seed: &mut Seed, image: &mut [u8]) {
    let place = seed.place(image.len());
    image[place] ^= 1 << seed.below(8);
}

/// Changes one of the two numbers in front of a frame, with a right check.
fn flip_front(seed: &mut Seed, image: &mut [u8], at: usize) {
    let frame = FRAME * seed.place(image.len() / FRAME);
    image[frame + at + seed.place(2)] ^= 1 << seed.below(8);
    seal(image);
}

/// Changes a word of the stream, with right checks.
fn stream_word(seed: &mut Seed, image: &mut [u8], place: usize) {
    let word = seed.odd_word();
    match seed.below(2) {
        0 => image[place_of(place + seed.place(4))] ^= 1 << seed.below(8),
        _ => put_word(image, place, word),
    }
    seal(image);
}
