//! Quarantine and sweep (rules, section 22), on both sides of each line: the proved code and the
//! reference answer alike, and as the rules say.

use lokhazim_reference::{Handle, HOLDS, MAX_HEAP, QUOTAS};
use lokhazim_tests::judge::cut::{header, put, quarantined, GREATEST_SERIAL, QUARANTINED};
use lokhazim_tests::judge::rules::{broken, Sentence};
use lokhazim_tests::run::calls::Pair;
use lokhazim_tests::run::unsound::check_is_the_judges;
use lokhazim_tests::run::wanted::Run;
use lokhazim_tests::state::{Call, Choice, CHOICES, KINDS, PLAIN, QUARANTINE};

/// The run of the rule book: released blocks wait side by side, take no request and no handle, and a
/// sweep joins them with each other and with free ones.
#[test]
fn released_blocks_wait_for_a_sweep() {
    let mut run = Run::open(128, QUARANTINE);
    let made = run.objects(0, 4);
    for handle in [made[1], made[0], made[3]] {
        run.gives(Call::Release(0, handle), &[16]);
    }
    run.has(&[
        (16, QUARANTINED),
        (16, QUARANTINED),
        (16, 3),
        (16, QUARANTINED),
        (64, 0),
    ]);
    run.gives(Call::Remaining(0), &[1_000_000 - 16]);
    run.refuses(Call::Allocate(0, 57), 11);
    run.refuses(Call::Release(0, made[0]), 5);
    run.gives(Call::List(16), &[1, 16, 16, u64::from(QUARANTINED)]);
    run.gives(Call::Sweep, &[48]);
    run.has(&[(32, 0), (16, 3), (80, 0)]);
    run.gives(Call::Sweep, &[0]);
    run.gives(Call::Allocate(0, 72), &[56, 72, 5]);
    assert!(run.state.heap[8..32].iter().all(|byte| *byte == 0));
}

/// A plain heap frees at once, and a sweep of it changes nothing.
#[test]
fn a_plain_heap_has_nothing_to_sweep() {
    let mut run = Run::open(128, PLAIN);
    let made = run.objects(0, 3);
    run.gives(Call::Release(0, made[1]), &[16]);
    run.has(&[(16, 1), (16, 0), (16, 3), (80, 0)]);
    let before = run.state.clone();
    run.gives(Call::Sweep, &[0]);
    assert_eq!(run.state, before);
}

/// Any number but 0 opens with quarantine, and the accounts then have 1, in either edition.
#[test]
fn kinds_of_an_opening() {
    for (number, kind) in [(0, 0), (1, 1), (2, 1), (255, 1), (256, 1), (u32::MAX, 1)] {
        for edition in [0, 1] {
            Run::opens_with(Choice::of(number, edition), kind, edition as u8);
        }
    }
}

/// Every number for the kind, with and without a quarantined block.
#[test]
fn every_number_of_the_kind_is_judged_alike() {
    let mut run = Run::open(64, QUARANTINE);
    let empty = run.state.clone();
    let made = run.objects(0, 1);
    run.gives(Call::Release(0, made[0]), &[16]);
    for (state, from) in [(&empty, 0), (&run.state, 1)] {
        for kind in 0..=255 {
            let mut changed = state.clone();
            changed.accounts.kind = kind;
            let expected: &[Sentence] = match kind {
                kind if kind >= from && kind <= 1 => &[],
                _ => &[Sentence::Kind],
            };
            assert_eq!(broken(&changed), expected, "{kind}");
            let mut pair = Pair::new();
            check_is_the_judges(&mut pair, &changed).unwrap_or_else(|failure| panic!("{failure}"));
            let refusal = if expected.is_empty() { 0 } else { 2 };
            let answer = Run::on(changed).call(Call::Sweep);
            assert_eq!(answer.refusal, refusal, "{kind}");
        }
    }
}

/// The sizes of a quarantined block, beside free and quarantined ones: 8 bytes are too few.
#[test]
fn quarantined_blocks_have_16_bytes_or_more() {
    let mut pair = Pair::new();
    let cases = KINDS
        .into_iter()
        .flat_map(|kind| [(kind, 0), (kind, QUARANTINED)]);
    for (size, (kind, behind)) in (1..16).flat_map(|n| cases.clone().map(move |c| (8 * n, c))) {
        let mut state = Run::open(128, kind).state;
        put(&mut state.heap, 0, header(size, 0, QUARANTINED));
        put(&mut state.heap, size, header(128 - size, size, behind));
        let short = size < 16 || behind != 0 && 128 - size < 16;
        let wanted = match (short, kind) {
            (true, PLAIN) => vec![Sentence::Cut, Sentence::Kind],
            (true, _) => vec![Sentence::Cut],
            (false, PLAIN) => vec![Sentence::Kind],
            (false, _) => vec![],
        };
        assert_eq!(broken(&state), wanted, "{size}");
        check_is_the_judges(&mut pair, &state).unwrap_or_else(|failure| panic!("{failure}"));
    }
}

/// A quarantined block stands at any offset and has any size, whatever unit an object there would
/// have.
#[test]
fn units_do_not_bind_quarantined_blocks() {
    let length = MAX_HEAP as u32;
    for (front, size) in [
        (8, 8_200),
        (16, 8_208),
        (8, 16_392),
        (24, 16_400),
        (8, 32_760),
    ] {
        let mut state = Run::open(MAX_HEAP, QUARANTINE).state;
        put(&mut state.heap, 0, header(front, 0, 0));
        put(&mut state.heap, front, header(size, front, QUARANTINED));
        let rest = length - front - size;
        if rest > 0 {
            put(&mut state.heap, front + size, header(rest, size, 0));
        }
        let mut run = Run::on(state);
        run.gives(Call::Sweep, &[size.into()]);
        run.has(&[(length, 0)]);
    }
}

/// What stands in the bodies of foreign blocks stays, but for the headers that a sweep joins.
#[test]
fn junk_in_quarantined_bodies_stays() {
    let mut run = Run::open(96, QUARANTINE);
    run.state.heap.fill(0xEE);
    let heap = &mut run.state.heap;
    put(heap, 0, header(32, 0, QUARANTINED));
    put(heap, 32, header(24, 32, QUARANTINED));
    put(heap, 56, header(40, 24, 0));
    let mut wanted = heap.clone();
    put(&mut wanted, 0, header(96, 0, 0));
    wanted[32..40].fill(0);
    wanted[56..64].fill(0);
    run.gives(Call::Sweep, &[56]);
    assert_eq!(run.state.heap, wanted);
}

/// A release makes the object zero in both kinds, and leaves the bytes around it.
#[test]
fn a_released_object_is_cleared() {
    for choice in CHOICES {
        let mut run = Run::open(128, choice);
        let made = run.objects(0, 3);
        for handle in &made {
            for at in 0..8 {
                run.gives(Call::Write(*handle, at, 0x77), &[]);
            }
        }
        run.gives(Call::Release(0, made[1]), &[16]);
        assert_eq!(run.state.heap[24..32], [0; 8]);
        assert_eq!(run.state.heap[8..16], [0x77; 8]);
        assert_eq!(run.state.heap[40..48], [0x77; 8]);
    }
}

/// More quarantined blocks than there are records, by free-all and by releases.
#[test]
fn more_blocks_wait_than_there_are_records() {
    const FURTHER: usize = 100;
    let mut run = Run::open(MAX_HEAP, QUARANTINE);
    run.objects(0, HOLDS);
    run.refuses(Call::Allocate(1, 8), 9);
    run.gives(Call::FreeAll(0), &[16 * HOLDS as u64]);
    let made = run.objects(1, FURTHER);
    for handle in &made {
        run.gives(Call::Release(1, *handle), &[16]);
    }
    let waiting = HOLDS + FURTHER;
    assert_eq!(quarantined(&run.state.heap).len(), waiting);
    let all = run.objects(2, HOLDS);
    run.gives(Call::Release(2, all[3]), &[16]);
    run.gives(Call::FreeAll(2), &[16 * (HOLDS as u64 - 1)]);
    run.gives(Call::Sweep, &[16 * (waiting + HOLDS) as u64]);
    run.has(&[(MAX_HEAP as u32, 0)]);
    assert!(run.pair.tally.most_waiting > 2 * HOLDS);
}

/// A heap that is full of quarantined blocks of 16 bytes, as foreign as can be.
#[test]
fn a_heap_full_of_quarantined_blocks() {
    let mut state = Run::open(MAX_HEAP, QUARANTINE).state;
    for offset in (0..MAX_HEAP as u32).step_by(16) {
        let back = if offset == 0 { 0 } else { 16 };
        put(&mut state.heap, offset, header(16, back, QUARANTINED));
    }
    let mut run = Run::on(state);
    run.refuses(Call::Allocate(0, 1), 11);
    run.gives(Call::FreeAll(0), &[0]);
    let mut plain = Run::on(run.state.clone());
    plain.state.accounts.kind = 0;
    plain.refuses(Call::Sweep, 2);
    run.gives(Call::Sweep, &[MAX_HEAP as u64]);
    run.has(&[(MAX_HEAP as u32, 0)]);
}

/// The last serial that an object can have, in both kinds (rule 12.7), and the one that none can.
#[test]
fn serials_end_below_that_of_quarantine() {
    for choice in CHOICES {
        let mut run = Run::open(128, choice);
        run.state.accounts.last_serial = GREATEST_SERIAL - 1;
        let last = u64::from(GREATEST_SERIAL);
        run.gives(Call::Allocate(0, 8), &[8, 8, last]);
        let handle = Handle {
            base: 8,
            length: 8,
            serial: GREATEST_SERIAL,
        };
        run.refuses(Call::Allocate(0, 8), 10);
        run.refuses(Call::Array(0, 1, 8), 10);
        run.refuses(Call::Reallocate(0, handle, 8), 10);
        run.gives(Call::Claim(1, handle), &[8]);
        run.gives(Call::FreeAll(0), &[16]);
        run.gives(Call::Release(1, handle), &[16]);
        run.gives(Call::Sweep, &[16 * u64::from(choice.kind)]);
        run.state.accounts.last_serial = QUARANTINED;
        assert_eq!(broken(&run.state), [Sentence::LastSerial]);
        run.refuses(Call::Allocate(0, 8), 2);
        run.refuses(Call::Check, 2);
        run.gives(Call::Open([5; QUOTAS], choice), &[]);
    }
}

/// A handle with the serial of quarantine names nothing, whole or narrowed, in either kind.
#[test]
fn no_handle_names_a_quarantined_block() {
    for choice in CHOICES {
        let mut run = Run::open(64, choice);
        let made = run.objects(0, 1);
        run.gives(Call::Release(0, made[0]), &[16]);
        for length in [8, 1] {
            let handle = Handle {
                length,
                serial: QUARANTINED,
                ..made[0]
            };
            run.refuses(Call::Lend(handle), 5);
            run.refuses(Call::Write(handle, 0, 1), 5);
            run.refuses(Call::Claim(1, handle), 5);
            run.refuses(Call::Release(0, handle), 5);
            run.refuses(Call::CanRelease(0, handle), 5);
            run.refuses(Call::Reallocate(0, handle, 8), 5);
        }
    }
}

/// A record with the serial of a quarantined block is of no live object.
#[test]
fn no_record_is_of_a_quarantined_block() {
    let mut run = Run::open(64, QUARANTINE);
    let made = run.objects(0, 1);
    run.gives(Call::Release(0, made[0]), &[16]);
    run.state.accounts.holds[0].serial = QUARANTINED;
    run.state.accounts.holds[0].count = 1;
    run.state.accounts.quotas[0].remainder -= 16;
    assert_eq!(broken(&run.state), [Sentence::Records, Sentence::Sums]);
    run.refuses(Call::Sweep, 2);
    run.state.accounts.quotas[0].remainder += 16;
    assert_eq!(broken(&run.state), [Sentence::Records]);
    run.refuses(Call::Sweep, 2);
}

/// Reallocate leaves the old block in quarantine, and needs room beside it.
#[test]
fn reallocate_quarantines_the_old_block() {
    let mut run = Run::open(64, QUARANTINE);
    let mut handle = run.objects(0, 1)[0];
    for (base, serial) in [(24, 2), (40, 3), (56, 4)] {
        let next = Call::Reallocate(0, handle, 8);
        run.gives(next, &[base, 8, serial]);
        handle = Handle {
            base: base as u32,
            length: 8,
            serial: serial as u32,
        };
    }
    run.refuses(Call::Reallocate(0, handle, 8), 11);
    run.gives(Call::Sweep, &[48]);
    run.gives(Call::Reallocate(0, handle, 40), &[8, 40, 5]);
}

/// Sweep asks for no quota and no permission.
#[test]
fn sweep_needs_no_permission() {
    let mut run = Run::open(64, QUARANTINE);
    let made = run.objects(0, 1);
    run.gives(Call::Release(0, made[0]), &[16]);
    for quota in 0..QUOTAS as u32 {
        run.gives(Call::ClearPermissions(quota, 7), &[0]);
    }
    run.gives(Call::Sweep, &[16]);
}
