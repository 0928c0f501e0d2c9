//! The replay program on random lists of calls, compared with the calls themselves.

use lokhazim_reference::{replay, Handle, Walker, QUOTAS};

use crate::prng::Prng;
use crate::state::*;

/// Gives the line of a call.
fn line_of(call: Call) -> String {
    let words = |h: Handle| format!("{} {} {}", h.base, h.length, h.serial);
    match call {
        Call::Allocate(q, n) => format!("alloc {q} {n}\n"),
        Call::Array(q, n, s) => format!("array {q} {n} {s}\n"),
        Call::Claim(q, h) => format!("claim {q} {}\n", words(h)),
        Call::Release(q, h) => format!("free {q} {}\n", words(h)),
        Call::FreeAll(q) => format!("all {q}\n"),
        Call::Reallocate(q, h, n) => format!("realloc {q} {} {n}\n", words(h)),
        other => panic!("{other:?} has no line"),
    }
}

/// Makes a call, gives its output line and keeps a handle that it answers.
fn answer_of(state: &mut State, call: Call, seen: &mut Vec<Handle>) -> String {
    match state.perform(call) {
        Ok(Answer::Object(new)) => {
            seen.push(new);
            format!("ok {} {} {}\n", new.base, new.length, new.serial)
        }
        Ok(Answer::Number(number)) => format!("ok {number}\n"),
        Ok(other) => panic!("{call:?} gave {other:?}"),
        Err(refusal) => format!("no {}\n", refusal.number()),
    }
}

/// Chooses a call that has a line.
fn choose(prng: &mut Prng, seen: &[Handle]) -> Call {
    let quota = prng.below(4) * prng.pick(&[1, 1, 1, 1, 9]);
    let length = prng.pick(&[0, 1, 8, 9, 40, 41, 100, 9_000, 40_000]);
    let recent = &seen[seen.len().saturating_sub(5)..];
    let handle = prng.pick(recent);
    match prng.below(12) {
        0..4 => Call::Allocate(quota, length),
        4 => Call::Array(quota, prng.below(12), prng.below(12)),
        5..7 => Call::Claim(quota, handle),
        7..9 => Call::Release(quota, handle),
        9..11 => Call::Reallocate(quota, handle, length),
        _ => Call::FreeAll(quota),
    }
}

#[test]
fn replay_prints_the_answers_of_the_calls_and_the_blocks() {
    let mut prng = Prng::new(21);
    for _ in 0..60 {
        let length = prng.pick(&[64, 128, 512, 20_000, 32_768]);
        let grants = [0; QUOTAS].map(|_| prng.pick(&[0, 100, 3_000, u32::MAX]));
        let mut state = opened(length, &grants);
        let words: Vec<String> = grants.iter().map(u32::to_string).collect();
        let mut input = format!("open {length} {}\n", words.join(" "));
        let mut output = "ok\n".to_string();
        let mut seen = vec![Handle::default()];
        for _ in 0..prng.below(60) {
            let call = choose(&mut prng, &seen);
            input.push_str(&line_of(call));
            output.push_str(&answer_of(&mut state, call, &mut seen));
        }
        let mut walker = Walker::new(&state.heap);
        while let Ok(Some(block)) = walker.step(&state.accounts) {
            output.push_str(&format!(
                "{} {} {}\n",
                block.offset, block.size, block.serial
            ));
        }
        assert_eq!(String::from_utf8(replay(input.as_bytes())), Ok(output));
    }
}
