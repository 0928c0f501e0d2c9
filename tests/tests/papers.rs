//! The runs of section 12 of the rules, by both replay programs and by the calls.

use lokhazim_reference::{Accounts, Handle, QUOTAS};
use lokhazim_tests::cases::script::open_line;
use lokhazim_tests::run::calls::Pair;
use lokhazim_tests::run::programs::{Feed, Programs};
use lokhazim_tests::state::{Answer, Call, State, PLAIN};

/// Runs both programs on lines and checks that they print these lines.
fn prints(name: &str, input: &str, output: &str) {
    let compared = Programs::find()
        .and_then(|programs| programs.compare(name, input.as_bytes(), Feed::Whole))
        .unwrap_or_else(|failure| panic!("{failure}"));
    assert_eq!(String::from_utf8_lossy(&compared), output, "{name}");
}

/// Gives the line of an opening with these grants, zero behind those that are listed.
fn open(length: u32, first_grants: &[u32]) -> String {
    open_line(length, grants(first_grants))
}

/// Makes a handle of its three numbers.
fn handle(base: u32, length: u32, serial: u32) -> Handle {
    Handle {
        base,
        length,
        serial,
    }
}

/// Gives the grants, zero behind those that are listed.
fn grants(first: &[u32]) -> [u32; QUOTAS] {
    let mut all = [0; QUOTAS];
    all[..first.len()].copy_from_slice(first);
    all
}

/// A heap with its accounts on which calls are made by both sides.
struct Run {
    pair: Pair,
    state: State,
}

impl Run {
    /// Opens a heap of this length that holds other bytes before.
    fn open(length: usize, first_grants: &[u32]) -> (Run, Answer) {
        let state = State {
            heap: vec![0xA5; length],
            accounts: Accounts::default(),
        };
        let mut run = Run {
            pair: Pair::new(),
            state,
        };
        run.pair.begin("papers", 0, length as u64);
        let answer = run.call(Call::Open(grants(first_grants), PLAIN));
        (run, answer)
    }

    /// Makes a call on both sides.
    fn call(&mut self, call: Call) -> Answer {
        let answer = self.pair.call(&mut self.state, call);
        answer.unwrap_or_else(|failure| panic!("{failure}"))
    }

    /// Makes a call and checks the numbers that it answers.
    fn gives(&mut self, step: &str, call: Call, numbers: &[u64]) {
        assert_eq!(self.call(call), Answer::accepted(numbers), "{step}");
    }

    /// Makes a call and checks the number of its refusal.
    fn refuses(&mut self, step: &str, call: Call, number: u32) {
        assert_eq!(self.call(call), Answer::refused(number), "{step}");
    }

    /// Checks what remains of a quota.
    fn remains(&mut self, step: &str, quota: u32, amount: u64) {
        self.gives(step, Call::Remaining(quota), &[amount]);
    }
}

#[test]
fn the_example_of_the_replay_program() {
    prints(
        "papers-example",
        &(open(128, &[100, 1_000]) + "alloc 0 10\nalloc 0 68\nfree 1 8 16 1\nall 0\n"),
        "ok\nok 8 16 1\nno 8\nno 6\nok 24\n0 128 0\n",
    );
}

#[test]
fn the_marked_run_as_a_script() {
    prints(
        "papers-marked-run",
        &(open(128, &[100, 1_000])
            + "alloc 0 10\nalloc 0 68\nclaim 1 8 16 1\nfree 0 8 16 1\n\
               alloc 1 96\nalloc 1 1\nfree 1 8 16 1\nalloc 0 24\nalloc 0 16\nfree 0 8 16 1\n\
               free 0 32 96 2\nall 1\n"),
        "ok\nok 8 16 1\nno 8\nok 16\nok 24\nok 32 96 2\nno 11\nok 24\nno 11\nok 8 16 3\nno 5\n\
         no 6\nok 104\n0 24 3\n24 104 0\n",
    );
}

#[test]
fn the_marked_run_as_calls() {
    let (mut run, opened) = Run::open(128, &[100, 1_000]);
    assert_eq!(opened, Answer::accepted(&[]));
    let mut bytes = vec![0; 128];
    bytes[0] = 0x10;
    assert_eq!(run.state.heap, bytes, "after the opening");
    let first = handle(8, 16, 1);
    run.gives("M1", Call::Allocate(0, 10), &[8, 16, 1]);
    run.remains("M1", 0, 76);
    bytes[0..8].copy_from_slice(&[3, 0, 0, 0, 1, 0, 0, 0]);
    bytes[24..32].copy_from_slice(&[0x0D, 0, 3, 0, 0, 0, 0, 0]);
    assert_eq!(run.state.heap, bytes, "after M1");
    run.refuses("M2", Call::Allocate(0, 68), 8);
    run.gives("M3", Call::Claim(1, first), &[16]);
    run.remains("M3", 1, 976);
    run.gives("M4", Call::Release(0, first), &[24]);
    run.remains("M4", 0, 100);
    run.gives("M4, the object lives", Call::Lend(first), &[8, 24]);
    run.gives("M5", Call::Allocate(1, 96), &[32, 96, 2]);
    run.remains("M5", 1, 872);
    run.refuses("M6", Call::Allocate(1, 1), 11);
    run.gives("M7", Call::Release(1, first), &[24]);
    run.remains("M7", 1, 896);
    run.refuses("M8", Call::Allocate(0, 24), 11);
    run.gives("M9", Call::Allocate(0, 16), &[8, 16, 3]);
    run.refuses("M10", Call::Release(0, first), 5);
    run.refuses("M11", Call::Release(0, handle(32, 96, 2)), 6);
    run.gives("M12", Call::FreeAll(1), &[104]);
    run.remains("M12", 1, 1_000);
}

#[test]
fn heap_lengths_on_both_sides_of_their_limits() {
    for (length, refusal) in [(56, 1), (64, 0), (65, 1), (32_768, 0), (32_776, 1)] {
        let (run, opened) = Run::open(length, &[7]);
        assert_eq!(opened.refusal, refusal, "{length}");
        if refusal == 1 {
            assert_eq!(run.state.accounts, Accounts::default(), "{length}");
            assert!(run.state.heap.iter().all(|byte| *byte == 0xA5), "{length}");
        }
        let output = match refusal {
            0 => format!("ok\n0 {length} 0\n"),
            _ => "no 1\n".to_owned(),
        };
        let input = open(length as u32, &[7]);
        prints(&format!("papers-length-{length}"), &input, &output);
    }
}

#[test]
fn request_lengths_on_both_sides_of_their_limits() {
    prints(
        "papers-refusal-4",
        &(open(128, &[9_000_000]) + "alloc 0 0\nalloc 0 32761\narray 0 65536 65536\narray 0 0 9\n"),
        "ok\nno 4\nno 4\nno 4\nno 4\n0 128 0\n",
    );
    prints(
        "papers-longest-object",
        &(open(32_768, &[9_000_000]) + "alloc 0 32737\nalloc 0 32760\nalloc 0 32736\n"),
        "ok\nno 11\nno 11\nok 32 32736 1\n0 24 0\n24 32744 1\n",
    );
    prints(
        "papers-unit-16",
        &(open(16_384, &[9_000_000]) + "alloc 0 8192\n"),
        "ok\nok 16 8192 1\n0 8 0\n8 8200 1\n8208 8176 0\n",
    );
    prints(
        "papers-row-crossed-to-16",
        &(open(16_384, &[9_000_000]) + "alloc 0 8185\nalloc 0 8176\nalloc 0 8168\n"),
        "ok\nok 16 8192 1\nno 11\nok 8216 8168 2\n0 8 0\n8 8200 1\n8208 8176 2\n",
    );
    prints(
        "papers-row-crossed-to-32",
        &(open(32_768, &[9_000_000]) + "alloc 0 16369\nalloc 0 8184\n"),
        "ok\nok 32 16384 1\nok 16424 8184 2\n0 24 0\n24 16392 1\n16416 8192 2\n24608 8160 0\n",
    );
}

#[test]
fn request_lengths_on_both_sides_of_their_limits_as_calls() {
    let (mut run, _) = Run::open(32_768, &[9_000_000]);
    run.refuses("0", Call::Allocate(0, 0), 4);
    run.refuses("32,761", Call::Allocate(0, 32_761), 4);
    run.refuses("array", Call::Array(0, 65_536, 65_536), 4);
    run.refuses("32,737", Call::Allocate(0, 32_737), 11);
    run.gives("32,736", Call::Allocate(0, 32_736), &[32, 32_736, 1]);
    let (mut run, _) = Run::open(16_384, &[9_000_000]);
    run.gives("8,192", Call::Allocate(0, 8_192), &[16, 8_192, 1]);
    run.gives("in front", Call::List(0), &[1, 0, 8, 0]);
    run.gives("the block", Call::List(8), &[1, 8, 8_200, 1]);
}

#[test]
fn requests_whose_length_is_in_the_next_row_get_its_unit() {
    for (asked, base, length) in [
        (8_184, 8, 8_184),
        (8_185, 16, 8_192),
        (8_191, 16, 8_192),
        (16_368, 16, 16_368),
        (16_369, 32, 16_384),
        (16_383, 32, 16_384),
    ] {
        let (mut run, _) = Run::open(32_768, &[9_000_000]);
        let step = format!("{asked}");
        run.gives(&step, Call::Allocate(0, asked), &[base, length, 1]);
    }
}

/// Rule 12.10: handles that were narrowed, and ranges that name nothing.
#[test]
fn narrowed_handles_as_calls() {
    let (mut run, _) = Run::open(64, &[100, 100]);
    run.gives("the first", Call::Allocate(0, 16), &[8, 16, 1]);
    run.gives("the second", Call::Allocate(0, 8), &[32, 8, 2]);
    for (base, length) in [(9, 1), (8, 1), (9, 15)] {
        let lend = Call::Lend(handle(base, length, 1));
        run.gives("lend", lend, &[base.into(), (base + length).into()]);
    }
    for (base, length, serial) in [
        (8, 0, 1),
        (8, 17, 1),
        (7, 2, 1),
        (24, 1, 1),
        (9, 1, 2),
        (33, 1, 1),
        (49, 1, 0),
        (u32::MAX, 1, 1),
        (8, u32::MAX, 1),
    ] {
        run.refuses("lend", Call::Lend(handle(base, length, serial)), 5);
    }
    let (part, front) = (handle(9, 15, 1), handle(8, 15, 1));
    run.refuses("realloc", Call::Reallocate(0, part, 8), 5);
    run.refuses("realloc", Call::Reallocate(0, front, 8), 5);
    run.refuses("realloc", Call::Reallocate(0, part, 0), 4);
    run.refuses("realloc", Call::Reallocate(0, front, 0), 4);
    run.refuses("realloc", Call::Reallocate(1, handle(9, 1, 1), 8), 5);
    run.refuses("realloc", Call::Reallocate(1, handle(8, 16, 1), 8), 6);
    let before = run.state.clone();
    let whole = Call::Reallocate(0, handle(8, 16, 1), 8);
    run.gives("realloc", whole, &[48, 8, 3]);
    run.state = before;
    run.gives("claim", Call::Claim(1, handle(9, 1, 1)), &[16]);
    run.gives("release", Call::Release(0, handle(23, 1, 1)), &[24]);
    run.gives("it lives on", Call::Lend(handle(23, 1, 1)), &[23, 24]);
    run.gives("release", Call::Release(1, handle(8, 1, 1)), &[24]);
    run.refuses("it is freed", Call::Lend(handle(23, 1, 1)), 5);
}

/// Rule 12.10 in lines: `claim` and `free` take any part, `realloc` the whole handle.
#[test]
fn narrowed_handles_as_a_script() {
    prints(
        "papers-narrowed",
        &(open(64, &[100, 100])
            + "alloc 0 16\nalloc 0 8\nrealloc 0 9 15 1 8\nrealloc 0 8 15 1 0\nrealloc 1 9 1 1 8\n\
               realloc 1 8 16 1 8\nclaim 1 8 0 1\nclaim 1 8 17 1\nclaim 1 9 1 2\nclaim 1 9 1 1\n\
               free 0 7 2 1\nfree 0 23 1 1\nfree 1 8 4294967295 1\nfree 1 8 1 1\nfree 1 8 1 1\n\
               realloc 0 32 8 2 8\n"),
        "ok\nok 8 16 1\nok 32 8 2\nno 5\nno 4\nno 5\nno 6\nno 5\nno 5\nno 5\nok 16\nno 5\nok 24\n\
         no 5\nok 24\nno 5\nok 8 8 3\n0 16 3\n16 48 0\n",
    );
}

/// The last quota, and the number behind it, in a script and in calls.
#[test]
fn quotas_up_to_the_last() {
    let last = QUOTAS as u32 - 1;
    let mut all = [0; QUOTAS];
    all[QUOTAS - 1] = 100;
    let lines = format!("alloc {last} 8\nall {last}\nalloc {QUOTAS} 8\nalloc 30 8\n");
    prints(
        "papers-last-quota",
        &(open_line(64, all) + &lines),
        "ok\nok 8 8 1\nok 16\nno 3\nno 8\n0 64 0\n",
    );
    let (mut run, _) = Run::open(64, &all);
    run.gives("the last quota", Call::Allocate(last, 8), &[8, 8, 1]);
    run.refuses("behind it", Call::Allocate(last + 1, 8), 3);
    run.refuses("behind it", Call::ClearPermissions(last + 1, 0), 3);
}

/// Eight grants, which were enough once, are too few.
#[test]
fn an_opening_with_eight_grants_is_bad() {
    prints("papers-eight-grants", "open 64 1 2 3 4 5 6 7 8\n", "bad\n");
}

#[test]
fn the_story_of_the_valve_is_answered_as_it_is_told() {
    let file = |name: &str| {
        let path = format!("{}/../examples/{name}", env!("CARGO_MANIFEST_DIR"));
        std::fs::read_to_string(path).expect("the example is there")
    };
    prints("valve", &file("valve.replay"), &file("valve.answers"));
}
