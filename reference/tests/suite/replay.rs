//! The replay program: its example and the corners of its protocol.

use std::io::Write;
use std::process::{Command, Stdio};

use crate::state::grants;
use lokhazim_reference::{replay, MAX_INPUT, QUOTAS};

/// Runs an input and gives the output as text.
fn run(input: &str) -> String {
    String::from_utf8(replay(input.as_bytes())).expect("the output is text")
}

/// Gives an `open` line with its line feed; grants that are not listed are zero.
fn open_line(length: &str, first_grants: &[u32]) -> String {
    let words: Vec<String> = grants(first_grants).iter().map(u32::to_string).collect();
    format!("open {length} {}\n", words.join(" "))
}

/// Runs lines behind an accepted open of 128 bytes and gives the output behind its `ok`.
fn after_open(lines: &str) -> String {
    let output = run(&(open_line("128", &[100, 1_000]) + lines));
    output
        .strip_prefix("ok\n")
        .expect("open answers ok")
        .to_string()
}

/// The example of rule 11.16, for 32 quotas.
const EXAMPLE: &str = "open 128 100 1000 0 0 0 0 0 0 0 0 0 0 0 0 0 0 \
                       0 0 0 0 0 0 0 0 0 0 0 0 0 0 0 0\n\
                       alloc 0 10\nalloc 0 68\nfree 1 8 16 1\nall 0\n";

/// The answer to the example.
const EXAMPLE_ANSWER: &str = "ok\nok 8 16 1\nno 8\nno 6\nok 24\n0 128 0\n";

#[test]
fn example_gives_its_answer_byte_for_byte() {
    assert_eq!(run(EXAMPLE), EXAMPLE_ANSWER);
}

#[test]
fn answers_of_each_call() {
    assert_eq!(run(&open_line("64", &[])), "ok\n0 64 0\n");
    let list = "0 24 1\n24 104 0\n";
    assert_eq!(after_open("alloc 0 10\n"), format!("ok 8 16 1\n{list}"));
    assert_eq!(after_open("array 0 2 5\n"), format!("ok 8 16 1\n{list}"));
    let claims = "alloc 0 10\nclaim 1 8 16 1\nclaim 0 8 16 1\nfree 0 8 16 1\nfree 0 8 16 1\n";
    let claimed = format!("ok 8 16 1\nok 16\nok 16\nok 0\nok 24\n{list}");
    assert_eq!(after_open(claims), claimed);
    assert_eq!(after_open("all 1\n"), "ok 0\n0 128 0\n");
    let moved = "ok 8 16 1\nok 32 8 2\n0 24 0\n24 16 2\n40 88 0\n";
    assert_eq!(after_open("alloc 0 10\nrealloc 0 8 16 1 8\n"), moved);
}

#[test]
fn line_shape_is_checked_before_meaning() {
    let zeros = |count| " 0".repeat(count);
    assert_eq!(run(&format!("open 56{}\n", zeros(QUOTAS - 1))), "bad\n");
    assert_eq!(run(&format!("open 56{}\n", zeros(QUOTAS + 1))), "bad\n");
    assert_eq!(run(&format!("open 56{}\n", zeros(QUOTAS))), "no 1\n");
    assert_eq!(run("open\n"), "bad\n");
    assert_eq!(QUOTAS, 32);
    assert_eq!(run(&format!("open 128{}\n", zeros(8))), "bad\n");
    assert_eq!(run(&format!("open 128{}\n", zeros(32))), "ok\n0 128 0\n");
}

#[test]
fn bad_line_comes_behind_the_answers_and_ends_it() {
    assert_eq!(
        after_open("alloc 0 10\nnope\nalloc 0 1\n"),
        "ok 8 16 1\nbad\n"
    );
    assert_eq!(
        after_open("alloc 0 68\nalloc 0 93\nalloc\n"),
        "ok 8 72 1\nno 8\nbad\n"
    );
}

/// Gives an input of this length: the first line, good calls and a bad last line.
fn input_of_length(first: &str, length: usize) -> String {
    let calls = (length - first.len() - 2) / "all 1\n".len();
    let mut input = first.to_string() + &"all 1\n".repeat(calls);
    input.push_str(&"x".repeat(length - 1 - input.len()));
    input.push('\n');
    input
}

#[test]
fn too_long_an_input_is_bad_alone() {
    let good = open_line("128", &[100, 1_000]);
    let output = run(&input_of_length(&good, MAX_INPUT));
    assert!(output.starts_with("ok\nok 0\n") && output.ends_with("ok 0\nbad\n"));
    assert_eq!(run(&input_of_length(&good, MAX_INPUT + 1)), "bad\n");
    let refused = open_line("56", &[]);
    assert_eq!(run(&input_of_length(&refused, MAX_INPUT)), "no 1\n");
    assert_eq!(run(&input_of_length(&refused, MAX_INPUT + 1)), "bad\n");
    assert_eq!(run(&"x".repeat(MAX_INPUT + 1)), "bad\n");
    assert_eq!(run(&"\n".repeat(MAX_INPUT * 2)), "bad\n");
}

#[test]
fn longest_input_allowed_runs_to_the_list() {
    let mut input = open_line("128", &[100]);
    while input.len() + "all 0\n".len() <= MAX_INPUT {
        input.push_str("all 0\n");
    }
    let short = MAX_INPUT - input.len();
    let wider = "9".repeat(short);
    input = input.replacen("open 128 100", &format!("open 128 100{wider}"), 1);
    assert_eq!(input.len(), MAX_INPUT);
    assert!(run(&input).ends_with("ok 0\n0 128 0\n"));
    assert_eq!(run(&(input + "\n")), "bad\n");
}

#[test]
fn refused_open_ends_it_whatever_follows() {
    for tail in ["", "nope\n", "\n", "alloc 0 1\n", "unended", "open 128\n"] {
        assert_eq!(run(&(open_line("56", &[]) + tail)), "no 1\n");
        assert_eq!(run(&(open_line("4294967295", &[]) + tail)), "no 1\n");
        assert_eq!(run(&(open_line("0", &[]) + tail)), "no 1\n");
    }
}

#[test]
fn numbers_are_decimal_without_leading_zeros() {
    let words = [
        "00", "007", "+1", "-1", "0x10", "1e3", "", "1.0", "1_0", "a", "٣", "-0",
    ];
    for word in words {
        assert_eq!(after_open(&format!("all {word}\n")), "bad\n", "{word}");
        assert_eq!(after_open(&format!("alloc {word} 1\n")), "bad\n", "{word}");
        assert_eq!(run(&open_line(word, &[])), "bad\n", "{word}");
    }
    assert_eq!(after_open("all 0\n"), "ok 0\n0 128 0\n");
}

#[test]
fn numbers_above_32_bits_are_bad_and_the_greatest_is_a_number() {
    for word in [
        "4294967296",
        "4294967304",
        "18446744073709551616",
        "99999999999999999999999",
    ] {
        assert_eq!(after_open(&format!("all {word}\n")), "bad\n", "{word}");
        assert_eq!(after_open(&format!("alloc 0 {word}\n")), "bad\n", "{word}");
        assert_eq!(run(&open_line(word, &[])), "bad\n", "{word}");
    }
    let most = "4294967295";
    assert_eq!(run(&open_line(most, &[])), "no 1\n");
    assert_eq!(after_open(&format!("all {most}\n")), "no 3\n0 128 0\n");
    assert_eq!(after_open(&format!("alloc 0 {most}\n")), "no 4\n0 128 0\n");
    assert_eq!(
        after_open(&format!("array 0 {most} {most}\n")),
        "no 4\n0 128 0\n"
    );
    let line = format!("free 0 {most} {most} {most}\n");
    assert_eq!(after_open(&line), "no 5\n0 128 0\n");
    assert_eq!(run(&open_line("64", &[u32::MAX])), "ok\n0 64 0\n");
}

#[test]
fn quota_out_of_range_is_refusal_3() {
    for quota in [QUOTAS, QUOTAS + 1, 255, 256] {
        assert_eq!(after_open(&format!("alloc {quota} 8\n")), "no 3\n0 128 0\n");
    }
}

#[test]
fn spaces_and_other_bytes_are_bad() {
    let lines = [
        "all 0 \n",
        " all 0\n",
        "all  0\n",
        "all\t0\n",
        "all 0\r\n",
        "all 0\0\n",
        "\0\n",
        "all 0\u{a0}\n",
        "all\u{2003}0\n",
        "all 0\u{b}\n",
        " \n",
        "\r\n",
    ];
    for line in lines {
        assert_eq!(after_open(line), "bad\n", "{line:?}");
    }
    assert_eq!(run(&open_line("128", &[]).replace('\n', "\r\n")), "bad\n");
    let mut bytes = open_line("128", &[]).into_bytes();
    bytes.extend_from_slice(b"all \xff\n");
    assert_eq!(replay(&bytes), b"ok\nbad\n");
    assert_eq!(replay(b"\xff\xfe\n"), b"bad\n");
}

#[test]
fn last_line_without_line_feed_is_bad() {
    assert_eq!(after_open("alloc 0 10\nall 0"), "ok 8 16 1\nbad\n");
    assert_eq!(run(open_line("128", &[]).trim_end()), "bad\n");
    assert_eq!(run(open_line("56", &[]).trim_end()), "bad\n");
}

#[test]
fn empty_lines_and_empty_input_are_bad() {
    assert_eq!(after_open("\n"), "bad\n");
    assert_eq!(after_open("all 0\n\n"), "ok 0\nbad\n");
    assert_eq!(after_open("\nall 0\n"), "bad\n");
    assert_eq!(run("\n"), "bad\n");
    assert_eq!(run(""), "bad\n");
    assert_eq!(run(&format!("\n{}", open_line("128", &[]))), "bad\n");
}

#[test]
fn open_comes_first_and_only_there() {
    assert_eq!(after_open(&open_line("128", &[])), "bad\n");
    assert_eq!(after_open(&open_line("56", &[])), "bad\n");
    assert_eq!(run("alloc 0 10\n"), "bad\n");
    assert_eq!(run("all 0\n"), "bad\n");
    assert_eq!(run(&open_line("128", &[]).replace("open", "Open")), "bad\n");
}

#[test]
fn other_words_and_other_numbers_of_words_are_bad() {
    let lines = [
        "ALL 0",
        "lend 8 16 1",
        "remaining 0",
        "can 0 8 16 1",
        "release 0 8 16 1",
        "list",
        "all",
        "all 0 0",
        "alloc 0",
        "alloc 0 1 1",
        "array 0 1",
        "array 0 1 1 1",
        "claim 0 8 16",
        "claim 0 8 16 1 1",
        "free 0 8 16",
        "free 0 8 16 1 1",
        "realloc 0 8 16 1",
        "realloc 0 8 16 1 8 8",
        "0",
        "allo 0",
        "alll 0",
    ];
    for line in lines {
        assert_eq!(after_open(&format!("{line}\n")), "bad\n", "{line}");
    }
}

/// Runs the program itself and gives its output, after checking its status.
fn run_program(input: &[u8]) -> Vec<u8> {
    let mut child = Command::new(env!("CARGO_BIN_EXE_replay-reference"))
        .stdin(Stdio::piped())
        .stdout(Stdio::piped())
        .spawn()
        .expect("the program starts");
    let mut stdin = child.stdin.take().expect("the input is open");
    // The program may stop reading before the end of too long an input.
    let _ = stdin.write_all(input);
    drop(stdin);
    let output = child.wait_with_output().expect("the program ends");
    assert_eq!(output.status.code(), Some(0));
    output.stdout
}

#[test]
fn program_answers_as_the_function_does_with_status_0() {
    assert_eq!(run_program(EXAMPLE.as_bytes()), EXAMPLE_ANSWER.as_bytes());
    assert_eq!(run_program(b""), b"bad\n");
    assert_eq!(run_program(&[0xff; 300]), b"bad\n");
    assert_eq!(run_program(&vec![b'\n'; MAX_INPUT * 3]), b"bad\n");
    assert_eq!(run_program(open_line("56", &[]).as_bytes()), b"no 1\n");
}
