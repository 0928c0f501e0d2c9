//! Comparing images: all differences of two images, by the proved code and by the reference, as the images and the
//! differences grow.

use std::fmt::Write;
use std::hint::black_box;
use std::time::Instant;

use lokhazim::{compare_images, image_length, Heap, QuotaId, HEAP_MAX, QUOTAS};

/// The heaps' lengths: each four times the one before.
const LENGTHS: [usize; 3] = [HEAP_MAX / 16, HEAP_MAX / 4, HEAP_MAX];

/// How often a pair is compared; the fastest counts.
const TURNS: usize = 7;

/// What is written into the one object of a heap.
#[derive(Clone, Copy)]
enum Contents {
    /// Nothing: the images are equal.
    Equal,
    /// Every byte: one run.
    OneRun,
    /// Every other byte: as many runs as there can be.
    EveryOther,
}

/// An image of a heap of this length whose one object holds the contents.
fn image(length: usize, contents: Contents) -> Vec<u8> {
    let mut memory = vec![0; length];
    let mut heap = Heap::open(&mut memory, [u32::MAX; QUOTAS]).expect("the length is allowed");
    let handle = heap
        .allocate(QuotaId::new(0), length as u32 - 64)
        .expect("the object fits");
    let object = heap.lend_mut(handle).expect("the object is live");
    match contents {
        Contents::Equal => {}
        Contents::OneRun => object.fill(1),
        Contents::EveryOther => object.iter_mut().step_by(2).for_each(|byte| *byte = 1),
    }
    let mut image = vec![0; image_length(length).expect("the length is allowed")];
    heap.save(&mut image).expect("the image fits");
    image
}

/// The fewest microseconds of some turns, and how many differences were listed.
fn fewest(mut list: impl FnMut() -> usize) -> (f64, usize) {
    let mut fewest = f64::INFINITY;
    let mut listed = 0;
    for _ in 0..TURNS {
        let start = Instant::now();
        listed = black_box(list());
        fewest = fewest.min(start.elapsed().as_secs_f64() * 1e6);
    }
    (fewest, listed)
}

/// The table of all pairs.
pub fn comparisons() -> String {
    let mut text = String::from(
        "All differences of two images: microseconds, the fewest of seven turns\n\
         heap bytes  differences      proved   reference  proved/reference  growth of the proved\n",
    );
    for contents in [Contents::Equal, Contents::OneRun, Contents::EveryOther] {
        let mut before = None;
        for length in LENGTHS {
            let (a, b) = (image(length, Contents::Equal), image(length, contents));
            let (proved, listed) =
                fewest(|| compare_images(&a, &b).expect("both are images").count());
            let (reference, also) = fewest(|| {
                let listed = lokhazim_reference::differences(&a, &b);
                listed.expect("both are images").len()
            });
            assert_eq!(listed, also, "the two programs list the same");
            let growth = before.map_or(String::from("-"), |before: f64| {
                format!("{:.1}", proved / before)
            });
            let _ = writeln!(
                text,
                "{length:>10}{listed:>13}{proved:>12.1}{reference:>12.1}{:>18.2}{growth:>22}",
                proved / reference
            );
            before = Some(proved);
        }
    }
    text.push_str("Each heap is four times the one before: a growth of about 4 is linear.\n");
    text
}
