//! Random lists of calls of many styles.

use std::ops::Range;

use lokhazim_reference::{HOLDS, QUOTAS};

use crate::list_run::{lists, Style, PLAIN};
use crate::state::all_options;

/// Makes lists in heaps of both kinds and both editions, and checks for each that calls were
/// accepted and that each of these refusals was given.
fn in_all_heaps(style: Style, seeds: Range<u64>, numbers: &[usize]) {
    for options in all_options() {
        let tally = lists(Style { options, ..style }, seeds.clone());
        for number in numbers {
            assert!(tally[*number] > 0, "{number} was never given: {tally:?}");
        }
        assert!(tally[0] > 0);
    }
}

#[test]
fn lists_on_small_heaps() {
    for heap_length in [64, 72, 128, 256] {
        let style = Style {
            heap_length,
            longest: heap_length / 3,
            ..PLAIN
        };
        in_all_heaps(style, 0..5, &[3, 4, 5, 6, 8, 11]);
    }
}

#[test]
fn lists_on_a_heap_of_1024_with_all_quotas() {
    let style = Style {
        heap_length: 1_024,
        quotas: QUOTAS as u32,
        longest: 120,
        ..PLAIN
    };
    in_all_heaps(style, 100..106, &[3, 4, 5, 6, 8]);
}

#[test]
fn lists_with_ample_grants_that_run_out_of_space() {
    let style = Style {
        heap_length: 512,
        grant: u32::MAX,
        shares: [55, 10, 20],
        ..PLAIN
    };
    in_all_heaps(style, 200..206, &[3, 4, 5, 6, 11]);
}

#[test]
fn lists_with_few_objects_whose_counts_reach_255() {
    let style = Style {
        heap_length: 64,
        quotas: 2,
        steps: 1_500,
        shares: [3, 94, 2],
        ..PLAIN
    };
    in_all_heaps(style, 300..303, &[7, 5]);
}

#[test]
fn lists_that_fill_all_hold_records() {
    let style = Style {
        heap_length: 4_096,
        grant: 60_000,
        quotas: QUOTAS as u32,
        longest: 16,
        steps: HOLDS * 2,
        shares: [40, 56, 2],
        sweeping: 100,
        ..PLAIN
    };
    in_all_heaps(style, 400..401, &[9]);
}

#[test]
fn lists_that_reach_the_last_serial() {
    let style = Style {
        last_serial: u32::MAX - 12,
        ..PLAIN
    };
    in_all_heaps(style, 500..504, &[10, 5, 6, 8]);
}

#[test]
fn lists_in_which_permissions_are_cleared() {
    let style = Style {
        quotas: QUOTAS as u32,
        grant: 2_000,
        clearing: 30,
        ..PLAIN
    };
    in_all_heaps(style, 700..708, &[12, 3, 4, 5, 6, 11]);
}

#[test]
fn lists_on_large_heaps_with_all_units() {
    for heap_length in [8_192, 16_384, 32_768] {
        let style = Style {
            heap_length,
            grant: 70_000,
            longest: heap_length / 2 + 2_000,
            steps: 120,
            ..PLAIN
        };
        in_all_heaps(style, 600..602, &[11]);
    }
}
