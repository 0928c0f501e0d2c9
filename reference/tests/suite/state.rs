//! Heaps and accounts written by hand, and the calls as values.

use std::ops::Range;

use lokhazim_reference::*;

/// A heap with its accounts.
#[derive(Clone, Debug, PartialEq, Eq)]
pub struct State {
    pub heap: Vec<u8>,
    pub accounts: Accounts,
}

/// A block for a heap written by hand: its size in bytes and its serial.
pub type Piece = (u32, u32);

/// Gives the grants, zero behind those that are listed.
pub fn grants(first: &[u32]) -> [u32; QUOTAS] {
    let mut all = [0; QUOTAS];
    all[..first.len()].copy_from_slice(first);
    all
}

/// Makes a handle of its three numbers.
pub fn handle(base: u32, length: u32, serial: u32) -> Handle {
    Handle {
        base,
        length,
        serial,
    }
}

/// Makes a record of its three numbers.
pub fn hold(serial: u32, quota: u8, count: u8) -> Hold {
    Hold {
        serial,
        quota,
        count,
    }
}

/// Gives the eight bytes of a header, sizes in bytes.
pub fn header(size: u32, back_size: u32, serial: u32) -> [u8; 8] {
    let [a, b, ..] = (size / 8).to_le_bytes();
    let [c, d, ..] = (back_size / 8).to_le_bytes();
    let [e, f, g, h] = serial.to_le_bytes();
    [a, b, c, d, e, f, g, h]
}

/// Writes eight bytes at an offset.
pub fn put(heap: &mut [u8], offset: u32, bytes: [u8; 8]) {
    heap[offset as usize..offset as usize + 8].copy_from_slice(&bytes);
}

/// Gives a heap that is cut into these pieces, with zero bodies.
pub fn heap_of(pieces: &[Piece]) -> Vec<u8> {
    let length: u32 = pieces.iter().map(|(size, _)| size).sum();
    let mut heap = vec![0; length as usize];
    let mut offset = 0;
    let mut back_size = 0;
    for &(size, serial) in pieces {
        put(&mut heap, offset, header(size, back_size, serial));
        offset += size;
        back_size = size;
    }
    heap
}

/// Gives accounts with these records and remainders, whose grants are remainder
/// plus the sizes of the live pieces that the quota has a record for, and all permissions.
pub fn accounts_of(
    pieces: &[Piece],
    holds: &[Hold],
    remainders: [u32; QUOTAS],
    last_serial: u32,
) -> Accounts {
    let mut accounts = Accounts {
        last_serial,
        ..Accounts::default()
    };
    accounts.holds[..holds.len()].copy_from_slice(holds);
    for (number, quota) in accounts.quotas.iter_mut().enumerate() {
        quota.remainder = remainders[number];
        quota.grant = remainders[number];
        quota.permissions = ALL_PERMISSIONS;
        for &(size, serial) in pieces.iter().filter(|(_, serial)| *serial != 0) {
            let held = |hold: &Hold| hold.serial == serial && usize::from(hold.quota) == number;
            if holds.iter().any(held) {
                quota.grant += size;
            }
        }
    }
    accounts
}

/// Both kinds of heaps.
pub const KINDS: [Kind; 2] = [Kind::Plain, Kind::Quarantine];

/// Both editions of the table of units.
pub const EDITIONS: [Edition; 2] = [Edition::First, Edition::Second];

/// Gives the options of a kind with the first edition.
pub fn of_kind(kind: Kind) -> Options {
    Options {
        kind,
        ..Options::default()
    }
}

/// Gives the options of a plain heap with an edition.
pub fn of_edition(edition: Edition) -> Options {
    Options {
        edition,
        ..Options::default()
    }
}

/// Gives all that can be chosen at opening.
pub fn all_options() -> Vec<Options> {
    let both = |kind| EDITIONS.map(|edition| Options { kind, edition });
    KINDS.into_iter().flat_map(both).collect()
}

/// Gives the unit of a length: in the second edition the least, from 8 on by doubling, of which
/// 511 are enough; in the first 8, doubled at the start of each further row.
pub fn unit_in(edition: Edition, length: u32) -> u32 {
    match edition {
        Edition::First => {
            let starts = [8_192, 16_384, 32_768];
            8 << starts.iter().filter(|start| **start <= length).count()
        }
        Edition::Second => {
            let mut units = (3..).map(|power| 1 << power);
            let enough = units.find(|unit| 511 * unit >= length);
            enough.expect("units grow")
        }
    }
}

/// Opens a plain heap that is expected to be accepted.
pub fn opened(length: usize, first_grants: &[u32]) -> State {
    opened_with(length, first_grants, Options::default())
}

/// Opens a heap with options that is expected to be accepted.
pub fn opened_with(length: usize, first_grants: &[u32], options: Options) -> State {
    let mut heap = vec![0xA5; length];
    let (accounts, answer) = open_with(&mut heap, grants(first_grants), options);
    assert_eq!(answer, Ok(()));
    State { heap, accounts }
}

/// A call with its arguments.
#[derive(Clone, Copy, Debug)]
pub enum Call {
    Allocate(u32, u32),
    Array(u32, u32, u32),
    Claim(u32, Handle),
    Release(u32, Handle),
    FreeAll(u32),
    Reallocate(u32, Handle, u32),
    Lend(Handle),
    Remaining(u32),
    CanRelease(u32, Handle),
    ClearPermissions(u32, u32),
    Sweep,
    Step(usize),
}

/// The answer of an accepted call.
#[derive(Clone, Debug, PartialEq, Eq)]
pub enum Answer {
    Object(Handle),
    Number(u32),
    Part(Range<usize>),
    Yes,
    Listed(Option<Block>),
}

impl State {
    /// Makes a call on heap and accounts.
    pub fn perform(&mut self, call: Call) -> Result<Answer, Refusal> {
        let State { heap, accounts } = self;
        match call {
            Call::Allocate(q, n) => allocate(heap, accounts, q, n).map(Answer::Object),
            Call::Array(q, n, s) => allocate_array(heap, accounts, q, n, s).map(Answer::Object),
            Call::Claim(q, h) => claim(heap, accounts, q, h).map(Answer::Number),
            Call::Release(q, h) => release(heap, accounts, q, h).map(Answer::Number),
            Call::FreeAll(q) => free_all(heap, accounts, q).map(Answer::Number),
            Call::Reallocate(q, h, n) => reallocate(heap, accounts, q, h, n).map(Answer::Object),
            Call::Lend(h) => lend(heap, accounts, h).map(Answer::Part),
            Call::Remaining(q) => remaining(heap, accounts, q).map(Answer::Number),
            Call::CanRelease(q, h) => can_release(heap, accounts, q, h).map(|()| Answer::Yes),
            Call::ClearPermissions(q, bits) => {
                clear_permissions(heap, accounts, q, bits).map(Answer::Number)
            }
            Call::Sweep => sweep(heap, accounts).map(Answer::Number),
            Call::Step(place) => block_at(heap, accounts, place).map(Answer::Listed),
        }
    }

    /// Makes a call and checks that it is refused with this number and changes nothing.
    pub fn refused(&mut self, call: Call, number: u8) {
        let before = self.clone();
        let answer = self.perform(call).map_err(Refusal::number);
        assert_eq!(answer, Err(number), "{call:?}");
        assert!(*self == before, "a refused {call:?} changed something");
    }

    /// Allocates where it is expected to be accepted.
    pub fn allocated(&mut self, quota: u32, length: u32) -> Handle {
        match self.perform(Call::Allocate(quota, length)) {
            Ok(Answer::Object(handle)) => handle,
            other => panic!("allocate {quota} {length} gave {other:?}"),
        }
    }

    /// Makes a call that is expected to answer with a number.
    pub fn number(&mut self, call: Call) -> u32 {
        match self.perform(call) {
            Ok(Answer::Number(number)) => number,
            other => panic!("{call:?} gave {other:?}"),
        }
    }

    /// Gives a quota's remainder by the call that asks for it.
    pub fn remainder(&self, quota: u32) -> u32 {
        remaining(&self.heap, &self.accounts, quota).expect("remaining is accepted")
    }
}

/// Gives one call of each kind, with arguments that fit a quota and a handle.
pub fn one_of_each(quota: u32, handle: Handle, length: u32) -> Vec<Call> {
    vec![
        Call::Allocate(quota, length),
        Call::Array(quota, 1, length),
        Call::Claim(quota, handle),
        Call::Release(quota, handle),
        Call::FreeAll(quota),
        Call::Reallocate(quota, handle, length),
        Call::Lend(handle),
        Call::Remaining(quota),
        Call::CanRelease(quota, handle),
        Call::ClearPermissions(quota, 1),
        Call::Sweep,
        Call::Step(0),
    ]
}
