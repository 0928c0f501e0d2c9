//! Settings found and added by the proved code and by the reference.

use lokhazim_reference::{add_setting, find_setting, SettingRefusal, Source, Store};

use crate::run::boundary::settings as proved;
use crate::run::boundary::settings::FindReply;
use crate::run::lent::Lent;
use crate::seed::Seed;

/// What was compared: how often each number came, from 0 for accepted, then 41 to 45.
#[derive(Default)]
pub struct Settings {
    finds: [u64; 6],
    adds: [u64; 6],
    defaults: u64,
}

/// The place of a refusal in a tally.
fn place(refusal: u32) -> usize {
    refusal.saturating_sub(40) as usize
}

impl Settings {
    /// Finds a value on both sides and gives what they agree on. Stores and guards have to stay.
    ///
    /// # Panics
    ///
    /// Where the two differ.
    pub fn find(
        &mut self,
        board: Store<'_>,
        defaults: Store<'_>,
        name: u8,
        version: u16,
    ) -> FindReply {
        let expected = match find_setting(board, defaults, name, version) {
            Ok((source, range)) => FindReply {
                refusal: 0,
                store: match source {
                    Source::Board => 1,
                    Source::Defaults => 2,
                },
                start: range.start,
                end: range.end,
            },
            Err(refusal) => FindReply {
                refusal: u32::from(refusal.number()),
                store: 0,
                start: 0,
                end: 0,
            },
        };
        let (mut own, mut other) = (Lent::guarded(board.bytes), Lent::guarded(defaults.bytes));
        let lent = |bytes, used| Store { bytes, used };
        let (a, b) = (
            lent(own.part(), board.used),
            lent(other.part(), defaults.used),
        );
        let found = proved::find(a, b, name, version);
        let asked = (board, defaults, name, version);
        assert_eq!(found, expected, "proved, then reference, of {asked:?}");
        assert_eq!(
            (&*own.part(), &*other.part()),
            (board.bytes, defaults.bytes)
        );
        assert!(own.guards_hold() && other.guards_hold(), "{asked:?}");
        self.finds[place(found.refusal)] += 1;
        self.defaults += u64::from(found.store == 2);
        found
    }

    /// Adds an entry on both sides and gives the answer and what the bytes then are.
    ///
    /// # Panics
    ///
    /// Where the two differ.
    pub fn add(
        &mut self,
        store: Store<'_>,
        name: u8,
        version: u16,
        value: &[u8],
    ) -> (Result<usize, u32>, Vec<u8>) {
        let mut left = store.bytes.to_vec();
        let expected = add_setting(&mut left, store.used, version, name, value)
            .map_err(|refusal: SettingRefusal| u32::from(refusal.number()));
        let (mut lent, mut handed) = (Lent::guarded(store.bytes), Lent::guarded(value));
        let (refusal, used) = proved::add(lent.part(), store.used, name, version, handed.part());
        let asked = (store, name, version, value);
        let numbers = match expected {
            Ok(used) => (0, used),
            Err(refusal) => (refusal, 0),
        };
        assert_eq!(
            (refusal, used),
            numbers,
            "proved, then reference, of {asked:?}"
        );
        assert_eq!(lent.part(), left, "what {asked:?} leaves");
        assert_eq!(handed.part(), value, "the value was written");
        assert!(lent.guards_hold() && handed.guards_hold(), "{asked:?}");
        self.adds[place(refusal)] += 1;
        (expected, left)
    }

    /// How often finding was accepted, and refused by 41 to 45.
    pub fn finds(&self) -> [u64; 6] {
        self.finds
    }

    /// How often adding was accepted, and refused by 41 to 45.
    pub fn adds(&self) -> [u64; 6] {
        self.adds
    }

    /// How often a value came from the defaults.
    pub fn defaults(&self) -> u64 {
        self.defaults
    }
}

/// The bytes of an entry.
pub fn entry(version: u16, name: u8, value: &[u8]) -> Vec<u8> {
    let [low, high] = version.to_le_bytes();
    [&[low, high, name, value.len() as u8], value].concat()
}

/// A store of any bytes that were made from a seed.
pub struct Made {
    /// The bytes.
    pub bytes: Vec<u8>,
    /// How many of them are used.
    pub used: usize,
}

impl Made {
    /// The store.
    pub fn store(&self) -> Store<'_> {
        let used = self.used;
        Store {
            bytes: &self.bytes,
            used,
        }
    }
}

/// A store of up to eight entries with versions that don't fall, few names, lengths at both ends,
/// and junk behind the used bytes.
pub fn good(seed: &mut Seed) -> Made {
    let mut bytes = Vec::new();
    let mut version = seed.pick(&[0, 0, 1, 254, 255, 256, 65_534]);
    for _ in 0..seed.below(9) {
        version = u16::saturating_add(version, seed.pick(&[0, 0, 1, 2, 255, 256]));
        let length = seed.pick(&[0, 1, 2, 5, 63, 64]);
        let value: Vec<u8> = (0..length).map(|_| seed.byte()).collect();
        bytes.extend(entry(version, seed.pick(&[0, 1, 2, 255]), &value));
    }
    let used = bytes.len();
    let junk = seed.pick(&[0, 0, 1, 3, 4, 5, 67, 68, 69, 100]);
    bytes.extend((0..junk).map(|_| seed.byte()));
    Made { bytes, used }
}

/// A store of which something may be wrong: a byte changed, the used length or the bytes cut or
/// longer, or any bytes at all.
pub fn damaged(seed: &mut Seed) -> Made {
    let mut made = good(seed);
    match seed.below(6) {
        0 if made.used > 0 => {
            let at = seed.place(made.used);
            made.bytes[at] = seed.pick(&[0, 1, 64, 65, 255, seed.clone().byte()]);
        }
        1 => made.used = seed.place(made.bytes.len() + 3),
        2 => made.bytes.truncate(made.used.saturating_sub(1)),
        3 => made.used = seed.pick(&[made.bytes.len() + 1, usize::MAX, usize::MAX - 3]),
        4 => made.bytes.iter_mut().for_each(|byte| *byte = seed.byte()),
        _ => {}
    }
    made
}
