//! The replay program: lines of calls in, lines of answers out (rules, section 11).

use std::fmt::Write;

use crate::accounts::{Accounts, QUOTAS};
use crate::allocation::{allocate, allocate_array, open, reallocate};
use crate::claims::{claim, free_all, release};
use crate::layout::Handle;
use crate::queries::Walker;
use crate::refusal::Refusal;
use crate::sound::length_is_allowed;

/// The most bytes that an input may have.
pub const MAX_INPUT: usize = 65_536;

/// A line that is not of an allowed kind.
struct Bad;

/// An opened heap with its accounts.
struct Session {
    heap: Vec<u8>,
    accounts: Accounts,
}

/// Runs the calls of the input and gives the answers.
///
/// Any input is accepted, of any length and with any bytes.
pub fn replay(input: &[u8]) -> Vec<u8> {
    let mut output = String::new();
    // OPEN: that the length is judged before the lines is a choice of rule 11.1.
    let ended = if input.len() > MAX_INPUT {
        Err(Bad)
    } else {
        run(input, &mut output)
    };
    if let Err(Bad) = ended {
        print_line("bad", &mut output);
    }
    output.into_bytes()
}

/// Runs the lines one after the other, printing each answer; a refused open
/// ends the run without the list.
fn run(input: &[u8], output: &mut String) -> Result<(), Bad> {
    let (first, mut rest) = split_line(input)?;
    let Some(mut session) = run_open(first, output)? else {
        return Ok(());
    };
    while !rest.is_empty() {
        let (line, behind) = split_line(rest)?;
        let answer = session.run_call(line)?;
        print_answer(answer, output);
        rest = behind;
    }
    session.print_blocks(output);
    Ok(())
}

/// Splits the first line, without its line feed, from what is behind it.
fn split_line(input: &[u8]) -> Result<(&[u8], &[u8]), Bad> {
    let end = input.iter().position(|byte| *byte == b'\n').ok_or(Bad)?;
    Ok((&input[..end], &input[end + 1..]))
}

/// Takes a line apart into its first word and the numbers behind it.
fn parse_line(line: &[u8]) -> Result<(&str, Vec<u32>), Bad> {
    let text = std::str::from_utf8(line).map_err(|_| Bad)?;
    let mut words = text.split(' ');
    let name = words.next().ok_or(Bad)?;
    let numbers = words.map(parse_number).collect::<Result<Vec<u32>, Bad>>()?;
    Ok((name, numbers))
}

/// Reads a decimal number of 32 bits without leading zeros (rule 11.3).
fn parse_number(word: &str) -> Result<u32, Bad> {
    let all_digits = !word.is_empty() && word.bytes().all(|byte| byte.is_ascii_digit());
    let leading_zero = word.len() > 1 && word.starts_with('0');
    if !all_digits || leading_zero {
        return Err(Bad);
    }
    word.parse().map_err(|_| Bad)
}

/// Runs the first line and prints its answer; none if the open is refused.
fn run_open(line: &[u8], output: &mut String) -> Result<Option<Session>, Bad> {
    let ("open", numbers) = parse_line(line)? else {
        return Err(Bad);
    };
    let (length, grants) = numbers.split_first().ok_or(Bad)?;
    let grants: [u32; QUOTAS] = grants.try_into().map_err(|_| Bad)?;
    let opened = open_heap(*length as usize, grants);
    print_answer(opened.as_ref().map(|_| Vec::new()).map_err(|r| *r), output);
    Ok(opened.ok())
}

/// Opens a new heap of this length; a length that is not allowed is refused
/// before any memory is taken for it.
fn open_heap(length: usize, grants: [u32; QUOTAS]) -> Result<Session, Refusal> {
    if !length_is_allowed(length) {
        return Err(Refusal::HeapLength);
    }
    let mut heap = vec![0; length];
    let (accounts, opened) = open(&mut heap, grants);
    opened.map(|()| Session { heap, accounts })
}

impl Session {
    /// Runs one line behind the first and gives the numbers of its answer.
    fn run_call(&mut self, line: &[u8]) -> Result<Result<Vec<u32>, Refusal>, Bad> {
        let Session { heap, accounts } = self;
        let (name, numbers) = parse_line(line)?;
        Ok(match (name, numbers.as_slice()) {
            ("alloc", &[q, n]) => allocate(heap, accounts, q, n).map(handle_numbers),
            ("array", &[q, n, s]) => allocate_array(heap, accounts, q, n, s).map(handle_numbers),
            ("claim", &[q, b, l, s]) => claim(heap, accounts, q, handle(b, l, s)).map(one_number),
            ("free", &[q, b, l, s]) => release(heap, accounts, q, handle(b, l, s)).map(one_number),
            ("all", &[q]) => free_all(heap, accounts, q).map(one_number),
            ("realloc", &[q, b, l, s, n]) => {
                reallocate(heap, accounts, q, handle(b, l, s), n).map(handle_numbers)
            }
            _ => return Err(Bad),
        })
    }

    /// Prints offset, size in bytes and serial of each block.
    fn print_blocks(&self, output: &mut String) {
        let mut walker = Walker::new(&self.heap);
        while let Ok(Some(block)) = walker.step(&self.accounts) {
            print_line(
                &numbers_text(&[block.offset, block.size, block.serial]),
                output,
            );
        }
    }
}

/// Makes a handle of its three numbers.
fn handle(base: u32, length: u32, serial: u32) -> Handle {
    Handle {
        base,
        length,
        serial,
    }
}

/// Gives the numbers of a handle in the order of printing.
fn handle_numbers(handle: Handle) -> Vec<u32> {
    vec![handle.base, handle.length, handle.serial]
}

/// Gives a single number as the numbers of an answer.
fn one_number(number: u32) -> Vec<u32> {
    vec![number]
}

/// Prints the line of an answer (rules 11.4 and 11.6).
fn print_answer(answer: Result<Vec<u32>, Refusal>, output: &mut String) {
    match answer {
        Ok(numbers) if numbers.is_empty() => print_line("ok", output),
        Ok(numbers) => print_line(&format!("ok {}", numbers_text(&numbers)), output),
        Err(refusal) => print_line(&format!("no {}", refusal.number()), output),
    }
}

/// Gives numbers in decimal with single spaces between them.
fn numbers_text(numbers: &[u32]) -> String {
    let words: Vec<String> = numbers.iter().map(u32::to_string).collect();
    words.join(" ")
}

/// Prints a line and its line feed.
fn print_line(line: &str, output: &mut String) {
    // Writing to a string does not fail.
    let _ = writeln!(output, "{line}");
}
