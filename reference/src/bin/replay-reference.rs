//! The replay program over standard input and output.

use std::io::{self, Read, Write};

use lokhazim_reference::{replay, MAX_INPUT};

/// Reads the calls, writes the answers and ends with status 0 on any input.
fn main() {
    let mut input = Vec::new();
    let one_byte_too_many = MAX_INPUT as u64 + 1;
    // A failed read or write leaves nothing else to do: the status stays 0.
    let _ = io::stdin().take(one_byte_too_many).read_to_end(&mut input);
    let mut stdout = io::stdout();
    let _ = stdout.write_all(&replay(&input));
    let _ = stdout.flush();
}
