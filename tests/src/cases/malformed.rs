//! Inputs that the replay program answers with `bad`: every kind of malformed line, at any place.

use lokhazim_reference::{MAX_INPUT, QUOTAS};

use crate::cases::choice::{Habits, REPLAYED};
use crate::cases::script::{call_line, open_line, Script};
use crate::seed::Seed;
use crate::state::Call;

/// How a good line becomes a bad one. The line comes without its line feed.
pub enum Way {
    /// A line of a call is changed.
    Line(fn(&mut Seed, &str) -> Vec<u8>),
    /// The opening line is changed.
    Opening(fn(&mut Seed, &str) -> Vec<u8>),
    /// The whole input, which is good, is changed.
    Whole(fn(&mut Seed, Vec<u8>) -> Vec<u8>),
}

/// A kind of malformed input.
pub struct Kind {
    /// What is wrong, in words.
    pub name: &'static str,
    /// How it is made.
    pub way: Way,
}

/// Makes a kind of a changed line.
const fn line(name: &'static str, way: fn(&mut Seed, &str) -> Vec<u8>) -> Kind {
    let way = Way::Line(way);
    Kind { name, way }
}

/// Makes a kind of a changed opening.
const fn opening(name: &'static str, way: fn(&mut Seed, &str) -> Vec<u8>) -> Kind {
    let way = Way::Opening(way);
    Kind { name, way }
}

/// Makes a kind of a changed input.
const fn whole(name: &'static str, way: fn(&mut Seed, Vec<u8>) -> Vec<u8>) -> Kind {
    let way = Way::Whole(way);
    Kind { name, way }
}

/// Every kind of malformed input.
pub const KINDS: [Kind; 43] = [
    line("an unknown word", |seed, l| {
        with_word(l, seed.pick(&UNKNOWN_WORDS))
    }),
    line("a word in capitals", |_, l| l.to_uppercase().into_bytes()),
    line("a word cut short", |_, l| l.as_bytes()[1..].to_vec()),
    line("a word with a letter more", |seed, l| {
        with_word(l, seed.pick(&["allocs", "freex", "al1", "all0"]))
    }),
    line("a number too few", |_, l| without_last(l)),
    line("a number too many", |seed, l| {
        format!("{l} {}", seed.below(9)).into_bytes()
    }),
    line("a word alone", |_, l| first_word(l).as_bytes().to_vec()),
    line("a leading zero", |seed, l| {
        with_number(seed, l, |n| format!("0{n}"))
    }),
    line("a zero with a leading zero", |seed, l| {
        with_number(seed, l, |_| "00".to_owned())
    }),
    line("a plus sign", |seed, l| {
        with_number(seed, l, |n| format!("+{n}"))
    }),
    line("a minus sign", |seed, l| {
        with_number(seed, l, |n| format!("-{n}"))
    }),
    line("a minus zero", |seed, l| {
        with_number(seed, l, |_| "-0".to_owned())
    }),
    line("a hexadecimal number", |seed, l| {
        with_number(seed, l, |n| format!("0x{n}"))
    }),
    line("an exponent", |seed, l| {
        with_number(seed, l, |n| format!("{n}e1"))
    }),
    line("a decimal point", |seed, l| {
        with_number(seed, l, |n| format!("{n}.0"))
    }),
    line("an underscore or comma", |seed, l| {
        with_number(seed, l, |n| format!("{n}_0"))
    }),
    line("a letter in a number", |seed, l| {
        with_number(seed, l, |n| format!("{n}a"))
    }),
    line("a word for a number", |seed, l| {
        with_number(seed, l, |_| "one".to_owned())
    }),
    line("the number 4,294,967,296", |seed, l| {
        with_number(seed, l, |_| "4294967296".to_owned())
    }),
    line("a number of ten digits above it", |seed, l| {
        with_number(seed, l, |_| "9999999999".to_owned())
    }),
    line("a number that is small modulo 2^32", |seed, l| {
        with_number(seed, l, |_| "42949672968".to_owned())
    }),
    line("a number that is small modulo 2^64", |seed, l| {
        with_number(seed, l, |_| "18446744073709551624".to_owned())
    }),
    line("a number of forty digits", |seed, l| {
        with_number(seed, l, |_| "1".repeat(40))
    }),
    line("a space at the end", |_, l| format!("{l} ").into_bytes()),
    line("a space at the start", |_, l| format!(" {l}").into_bytes()),
    line("two spaces", |seed, l| with_gap(seed, l, b"  ")),
    line("a tab", |seed, l| with_gap(seed, l, b"\t")),
    line("a carriage return at the end", |_, l| {
        format!("{l}\r").into_bytes()
    }),
    line("a byte 0", with_byte_0),
    line("a byte that no line has", with_foreign_byte),
    line("digits of another script", |seed, l| {
        with_number(seed, l, |_| "\u{0663}".to_owned())
    }),
    line("an empty line", |_, _| Vec::new()),
    line("a line of spaces", |seed, _| {
        vec![b' '; seed.between(1, 4) as usize]
    }),
    line("two calls in a line", |seed, l| {
        format!("{l}{}{l}", seed.pick(&[" ", ";", "; "])).into_bytes()
    }),
    line("open again", |seed, _| {
        open_line(seed.pick(&[56, 64, 128]), [9; QUOTAS])
            .trim_end()
            .as_bytes()
            .to_vec()
    }),
    opening("a first line that is not open", |seed, _| {
        seed.pick(&["alloc 0 8", "all 0", "close"])
            .as_bytes()
            .to_vec()
    }),
    opening("an opening with a grant too few", |_, l| without_last(l)),
    opening("an opening with eight grants", |_, l| {
        let words: Vec<&str> = l.split(' ').take(2 + 8).collect();
        words.join(" ").into_bytes()
    }),
    opening("an opening with a grant too many", |_, l| {
        format!("{l} 0").into_bytes()
    }),
    opening("an opening with a bad number", |seed, l| {
        with_number(seed, l, |_| "4294967296".to_owned())
    }),
    whole("no line feed at the end", |_, mut all| {
        all.pop();
        all
    }),
    whole("an empty input", |seed, _| {
        seed.pick(&["", "", "\n", "\n\n"]).as_bytes().to_vec()
    }),
    whole("an input that is too long", too_long),
];

/// Words that are not a call's.
const UNKNOWN_WORDS: [&str; 12] = [
    "lend",
    "remaining",
    "can",
    "list",
    "sweep",
    "release",
    "allocate",
    "close",
    "#",
    "a",
    "openx",
    "freeall",
];

/// A malformed input, its kind, and how many good lines stand in front of the bad one.
pub struct Malformed {
    /// The input.
    pub input: Vec<u8>,
    /// The kind's name.
    pub kind: &'static str,
    /// The good lines that are answered before `bad`.
    pub answered: usize,
}

/// Makes a malformed input of any kind.
pub fn script(seed: &mut Seed) -> Vec<u8> {
    let kind = seed.place(KINDS.len());
    make(seed, kind).input
}

/// Makes a malformed input of the kind at this place.
pub fn make(seed: &mut Seed, kind: usize) -> Malformed {
    let Kind { name, way } = &KINDS[kind];
    let mut script = Script::open_with(8 * seed.between(8, 64), 5_000);
    let habits = Habits {
        weights: REPLAYED,
        quotas: 3,
        wild: 5,
        narrow: 0,
        longest: 30,
    };
    for _ in 0..seed.below(8) {
        script.choose(seed, &habits);
    }
    let lines = script.lines();
    let (input, answered) = match way {
        Way::Line(way) => (bad_line(seed, script, *way), lines),
        Way::Opening(way) => (bad_opening(seed, script, *way), 0),
        Way::Whole(way) => {
            let cut_off = name.starts_with("no line feed");
            let answered = if cut_off { lines - 1 } else { 0 };
            (way(seed, script.text), answered)
        }
    };
    Malformed {
        input,
        kind: name,
        answered,
    }
}

/// Adds a bad line, and behind it good ones that must not be run.
fn bad_line(seed: &mut Seed, script: Script, way: fn(&mut Seed, &str) -> Vec<u8>) -> Vec<u8> {
    let good = good_line(seed);
    let mut text = script.text;
    text.extend_from_slice(&way(seed, good.trim_end_matches('\n')));
    text.push(b'\n');
    for _ in 0..seed.below(3) {
        text.extend_from_slice(good.as_bytes());
    }
    text
}

/// Changes the first line of a script.
fn bad_opening(seed: &mut Seed, script: Script, way: fn(&mut Seed, &str) -> Vec<u8>) -> Vec<u8> {
    let end = script
        .text
        .iter()
        .position(|byte| *byte == b'\n')
        .unwrap_or(0);
    let (first, rest) = script.text.split_at(end);
    let first = String::from_utf8_lossy(first).into_owned();
    [way(seed, &first), rest.to_vec()].concat()
}

/// Gives a good line of any call.
fn good_line(seed: &mut Seed) -> String {
    let (q, n, handle) = (
        seed.below(QUOTAS as u32 + 1),
        seed.below(40),
        Default::default(),
    );
    let call = seed.pick(&[
        Call::Allocate(q, n),
        Call::Array(q, n, 2),
        Call::Claim(q, handle),
        Call::Release(q, handle),
        Call::FreeAll(q),
        Call::Reallocate(q, handle, n),
    ]);
    call_line(call).unwrap_or_default()
}

/// Gives the first word of a line.
fn first_word(line: &str) -> &str {
    line.split(' ').next().unwrap_or_default()
}

/// Gives a line without its last word.
fn without_last(line: &str) -> Vec<u8> {
    let end = line.rfind(' ').unwrap_or(0);
    line.as_bytes()[..end].to_vec()
}

/// Puts another word in front of a line's numbers.
fn with_word(line: &str, word: &str) -> Vec<u8> {
    [word, &line[first_word(line).len()..]]
        .concat()
        .into_bytes()
}

/// Changes one number of a line.
fn with_number(seed: &mut Seed, line: &str, change: fn(&str) -> String) -> Vec<u8> {
    let mut words: Vec<String> = line.split(' ').map(str::to_owned).collect();
    let place = 1 + seed.place(words.len() - 1);
    words[place] = change(&words[place]);
    words.join(" ").into_bytes()
}

/// Puts other bytes in the place of one space.
fn with_gap(seed: &mut Seed, line: &str, gap: &[u8]) -> Vec<u8> {
    let spaces: Vec<usize> = line.match_indices(' ').map(|(at, _)| at).collect();
    let at = seed.pick(&spaces);
    [&line.as_bytes()[..at], gap, &line.as_bytes()[at + 1..]].concat()
}

/// Puts a byte at any place of a line.
fn with_byte(seed: &mut Seed, line: &str, byte: u8) -> Vec<u8> {
    let mut bytes = line.as_bytes().to_vec();
    bytes.insert(seed.place(bytes.len() + 1), byte);
    bytes
}

/// Puts a byte 0 at any place of a line.
fn with_byte_0(seed: &mut Seed, line: &str) -> Vec<u8> {
    with_byte(seed, line, 0)
}

/// Puts a byte at any place of a line that is no letter, digit, space or line feed.
fn with_foreign_byte(seed: &mut Seed, line: &str) -> Vec<u8> {
    let byte = loop {
        let byte = seed.byte();
        if !byte.is_ascii_alphanumeric() && byte != b' ' && byte != b'\n' {
            break byte;
        }
    };
    with_byte(seed, line, byte)
}

/// Makes an input longer than the longest by repeating a good line.
fn too_long(seed: &mut Seed, mut all: Vec<u8>) -> Vec<u8> {
    let more = seed.pick(&[1, 1, 7, 5_000]);
    while all.len() < MAX_INPUT + more {
        all.extend_from_slice(b"all 0\n");
    }
    all
}
