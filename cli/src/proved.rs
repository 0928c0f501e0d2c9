//! The proved replay, which `liblokhazim.a` has beside what the crate `lokhazim` calls. All unsafe
//! code of the command is here.

/// What the replay gives: `done` is 1 and `length` the bytes written, or both are 0.
#[repr(C)]
struct ReplayReply {
    done: u32,
    length: usize,
}

extern "C" {
    fn lokhazim_replay(
        input: *const u8,
        input_length: usize,
        output: *mut u8,
        output_length: usize,
    ) -> ReplayReply;
}

/// The bytes of output that are enough for every input.
const OUTPUT: usize = 589_824;

/// The most bytes that a script may have.
pub const LONGEST: usize = 65_536;

/// What the lines of a script print.
pub fn replay(script: &[u8]) -> Vec<u8> {
    let mut output = vec![0; OUTPUT];
    // SAFETY: each pointer and length are those of one slice that is borrowed for the call; the
    // function is proved to stay inside them on any bytes.
    let reply = unsafe {
        lokhazim_replay(
            script.as_ptr(),
            script.len(),
            output.as_mut_ptr(),
            output.len(),
        )
    };
    assert_eq!(reply.done, 1, "an output of {OUTPUT} bytes is long enough");
    output.truncate(reply.length);
    output
}
