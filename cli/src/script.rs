//! Scripts: what they print, the heap that they leave, and the heap after each call.
//!
//! What a line means is decided by the proved replay. To get at the heap that a script leaves, its
//! calls are made again by the library's own functions, and each answer is held against what the
//! proved replay prints. A heap of other options than the replay's has its answers from the
//! library's functions alone; the form of each line is the replay's.

use std::borrow::Cow;

use lokhazim::{Handle, Heap, Kind, Options, QuotaId, Refusal, QUOTAS};

use crate::failure::Failure;
use crate::proved::{replay, LONGEST};

/// What a script prints, and where it has a line that is none of the replay's.
pub struct Printed {
    /// The answers, and the blocks at the end.
    pub text: String,
    /// Why the script was not run to its end.
    pub bad: Option<String>,
}

/// Has a script replayed.
pub fn printed(name: &str, script: &[u8]) -> Printed {
    let text = String::from_utf8_lossy(&replay(script)).into_owned();
    let bad = text.ends_with("bad\n").then(|| match script.len() {
        0 => format!(
            "{name} is empty: its first line has to be an opening, open H and {QUOTAS} grants"
        ),
        length if length > LONGEST => {
            format!("{name} has {length} bytes, and a script has at most {LONGEST}")
        }
        _ => format!(
            "{name}: line {} is not one of the replay's, or does not end with a line feed",
            text.lines().count()
        ),
    });
    Printed { text, bad }
}

/// A call of a script that was made, or the opening.
pub struct Call {
    /// Its line, from 1.
    pub line: usize,
    /// The line's words.
    pub words: String,
    /// The quota that it names; none in an opening and a sweep.
    pub quota: Option<QuotaId>,
    /// The numbers of its answer.
    pub answer: Result<Vec<u32>, Refusal>,
}

impl Call {
    /// The answer as the replay prints it.
    pub fn printed(&self) -> String {
        match &self.answer {
            Ok(numbers) => numbers
                .iter()
                .fold("ok".to_owned(), |text, number| format!("{text} {number}")),
            Err(refusal) => format!("no {}", refusal.number()),
        }
    }
}

/// Runs a script and hands the heap that it leaves to a function.
pub fn left_by<T>(
    name: &str,
    script: &[u8],
    use_heap: impl FnOnce(&Heap) -> Result<T, Failure>,
) -> Result<T, Failure> {
    followed(name, script, Options::default(), |_, _| Ok(()), use_heap)
}

/// Runs a script on a heap of these options. Hands each call, the opening first, to a function with
/// the heap behind it, and the heap that the script leaves to another.
pub fn followed<T>(
    name: &str,
    script: &[u8],
    options: Options,
    mut each: impl FnMut(Call, &Heap) -> Result<(), Failure>,
    end: impl FnOnce(&Heap) -> Result<T, Failure>,
) -> Result<T, Failure> {
    let printed = printed(name, &judged(script, options.kind));
    if let Some(bad) = printed.bad {
        return Err(Failure::Refused(bad));
    }
    let mut answers = printed.text.lines();
    let refused = |refusal| Failure::Refused(format!("{name}: the opening: {refusal}"));
    if answers.next() != Some("ok") {
        return Err(refused(Refusal::HeapLength));
    }
    let text = String::from_utf8_lossy(script);
    let mut lines = text.lines();
    let opened = opening(lines.next().unwrap_or_default());
    let (call, length, grants) = opened.ok_or_else(|| differs(name, 1))?;
    let mut memory = vec![0; length];
    let mut heap = Heap::open_with(&mut memory, grants, options).map_err(refused)?;
    each(call, &heap)?;
    for (line, words) in (2..).zip(lines) {
        let call = made(&mut heap, line, words).ok_or_else(|| differs(name, line))?;
        let same = answers.next() == Some(call.printed().as_str());
        if !same && options == Options::default() {
            return Err(differs(name, line));
        }
        each(call, &heap)?;
    }
    end(&heap)
}

/// An opening as a call that is accepted, with the heap's length and the grants.
fn opening(words: &str) -> Option<(Call, usize, [u32; QUOTAS])> {
    let (_, numbers) = parted(words);
    let (length, grants) = numbers.split_first()?;
    let call = Call {
        line: 1,
        words: words.to_owned(),
        quota: None,
        answer: Ok(Vec::new()),
    };
    Some((call, *length as usize, grants.try_into().ok()?))
}

/// The script by which the replay judges the form of each line. It knows no sweep, which a heap with
/// quarantine needs: a line `sweep` is judged as `all 0`, of the same length.
fn judged(script: &[u8], kind: Kind) -> Cow<'_, [u8]> {
    if kind == Kind::Plain {
        return Cow::Borrowed(script);
    }
    let lines = script.split(|byte| *byte == b'\n');
    let lines: Vec<&[u8]> = lines
        .map(|line| if line == b"sweep" { b"all 0" } else { line })
        .collect();
    Cow::Owned(lines.join(&b'\n'))
}

/// The word and the numbers of a line.
fn parted(line: &str) -> (&str, Vec<u32>) {
    let mut words = line.split(' ');
    let first = words.next().unwrap_or_default();
    (first, words.filter_map(|word| word.parse().ok()).collect())
}

/// Makes the call of a line.
fn made(heap: &mut Heap, line: usize, words: &str) -> Option<Call> {
    let handle = |b: u32, l: u32, s: u32| Handle {
        base: b,
        length: l,
        serial: s,
    };
    let (word, values) = parted(words);
    let quota = values.first().copied().map(QuotaId::new);
    let others = values.get(1..).unwrap_or(&[]);
    let answer = match (word, quota, others) {
        ("alloc", Some(q), &[n]) => heap.allocate(q, n).map(of_handle),
        ("array", Some(q), &[n, s]) => heap.allocate_array(q, n, s).map(of_handle),
        ("claim", Some(q), &[b, l, s]) => heap.claim(q, handle(b, l, s)).map(of_amount),
        ("free", Some(q), &[b, l, s]) => heap.release(q, handle(b, l, s)).map(of_amount),
        ("all", Some(q), &[]) => heap.free_all(q).map(of_amount),
        ("realloc", Some(q), &[b, l, s, n]) => {
            heap.reallocate(q, handle(b, l, s), n).map(of_handle)
        }
        ("sweep", None, &[]) => heap.sweep().map(of_amount),
        _ => return None,
    };
    Some(Call {
        line,
        words: words.to_owned(),
        quota,
        answer,
    })
}

/// The numbers of an answer with a handle.
fn of_handle(handle: Handle) -> Vec<u32> {
    vec![handle.base, handle.length, handle.serial]
}

/// The number of an answer with an amount.
fn of_amount(amount: u32) -> Vec<u32> {
    vec![amount]
}

/// The failure of a line whose call does not answer as the proved replay does: the two libraries
/// are then of different versions.
fn differs(name: &str, line: usize) -> Failure {
    Failure::Refused(format!(
        "{name}: line {line}: the libraries of calls and of the replay differ; build the command anew by 'make cli'"
    ))
}
