//! Accounts as words where they lie, with padding of any bits and guard words around them.

use lokhazim_reference::{Accounts, Hold, Quota, HOLDS, QUOTAS};

use crate::seed::Seed;
use crate::state::{Call, State};

/// The place of the last serial; three words for each quota stand before it.
const LAST: usize = 3 * QUOTAS;

/// The place of kind and edition; two words for each record stand before it.
const KINDS: usize = LAST + 1 + 2 * HOLDS;

/// How many words the accounts are.
pub const WORDS: usize = KINDS + 1;

/// The guard words on each side.
const GUARD: usize = 16;

/// What every guard word holds.
const FILL: u32 = 0xC7C7_C7C7;

/// Words that are lent to the proved code.
pub struct Words {
    words: Vec<u32>,
    start: usize,
}

/// Gives the bits of the word at a place that belong to no field.
fn padding(place: usize) -> u32 {
    match place {
        0..LAST if place % 3 == 2 => 0xFFFF_FF00,
        KINDS => 0xFFFF_0000,
        _ if place > LAST && (place - LAST).is_multiple_of(2) => 0xFFFF_0000,
        _ => 0,
    }
}

/// Gives the words of the accounts, with zeros as padding.
fn plain(accounts: &Accounts) -> Vec<u32> {
    let low = |low: u8, high: u8| u32::from(low) + 256 * u32::from(high);
    let quotas = accounts.quotas.iter();
    let quotas = quotas.flat_map(|q| [q.grant, q.remainder, low(q.permissions, 0)]);
    let holds = accounts.holds.iter();
    let holds = holds.flat_map(|h| [h.serial, low(h.quota, h.count)]);
    let kinds = low(accounts.kind, accounts.edition);
    let words = quotas.chain([accounts.last_serial]).chain(holds);
    words.chain([kinds]).collect()
}

/// Tells whether words have zeros as padding.
pub fn is_plain(words: &[u32; WORDS]) -> bool {
    words[..] == plain(&accounts_of(words))
}

/// Gives the accounts that words hold, whatever their padding is.
pub fn accounts_of(words: &[u32; WORDS]) -> Accounts {
    let bytes = |place: usize| words[place].to_le_bytes();
    Accounts {
        quotas: std::array::from_fn(|q| Quota {
            grant: words[3 * q],
            remainder: words[3 * q + 1],
            permissions: bytes(3 * q + 2)[0],
        }),
        last_serial: words[LAST],
        holds: std::array::from_fn(|n| Hold {
            serial: words[LAST + 1 + 2 * n],
            quota: bytes(LAST + 2 + 2 * n)[0],
            count: bytes(LAST + 2 + 2 * n)[1],
        }),
        kind: bytes(KINDS)[0],
        edition: bytes(KINDS)[1],
    }
}

/// Gives the padding's bits for a call on a state, the same each time that the case is made.
fn marks(state: &State, call: Call) -> Seed {
    let mix = |sum: u64, number: &u64| sum.wrapping_mul(31).wrapping_add(*number);
    let numbers = call.numbers().iter().fold(call.kind() as u64, mix);
    Seed::of_case(u64::from(state.accounts.last_serial), numbers)
}

impl Words {
    /// Puts the accounts on which a call is made between guard words, at an address that is a multiple
    /// of 4 and not of 8.
    pub fn guarded(state: &State, call: Call) -> Words {
        let words = vec![FILL; WORDS + 2 * GUARD + 1];
        let start = GUARD + usize::from(words.as_ptr().addr().is_multiple_of(8));
        Words::filled(words, start, state, call)
    }

    /// Puts them into an allocation of their exact length, whose ends a memory checker watches.
    pub fn exact(state: &State, call: Call) -> Words {
        Words::filled(vec![FILL; WORDS], 0, state, call)
    }

    /// Puts the words where they belong, with any bits as padding.
    fn filled(mut words: Vec<u32>, start: usize, state: &State, call: Call) -> Words {
        let mut marks = marks(state, call);
        let part = &mut words[start..start + WORDS];
        part.copy_from_slice(&plain(&state.accounts));
        for (place, word) in part
            .iter_mut()
            .enumerate()
            .filter(|(n, _)| padding(*n) != 0)
        {
            *word |= marks.word() & padding(place);
        }
        Words { words, start }
    }

    /// The part that is lent.
    pub fn part(&mut self) -> &mut [u32; WORDS] {
        let part = &mut self.words[self.start..self.start + WORDS];
        part.try_into().expect("the part has this length")
    }

    /// Tells whether every word outside the lent part is as it was.
    pub fn guards_hold(&self) -> bool {
        let (front, rest) = self.words.split_at(self.start);
        front.iter().chain(&rest[WORDS..]).all(|word| *word == FILL)
    }
}

/// Says what a call did to padding that it may not do: an opening sets it to zero, and every other
/// call leaves it.
pub fn padding_differences(before: &[u32; WORDS], after: &[u32; WORDS], call: Call) -> Vec<String> {
    let kept = |word: u32| match call {
        Call::Open(..) => 0,
        _ => word,
    };
    let places = (0..WORDS).filter(|n| (kept(before[*n]) ^ after[*n]) & padding(*n) != 0);
    let said = |n: usize| {
        format!(
            "padding of word {n}: {:08x}, then {:08x}",
            before[n], after[n]
        )
    };
    places.map(said).take(16).collect()
}
