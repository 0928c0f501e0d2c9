//! Settings with versions: a store is read into a list of entries before it is asked anything.

use std::ops::Range;

/// The bytes of an entry before its value: version, name and length.
const FRONT_BYTES: usize = 4;

/// The most bytes that a value may have.
const MAX_VALUE: usize = 64;

/// A store of settings: lent bytes, of which the first so many are used.
// OPEN: that the defaults have a used length of their own is a choice.
#[derive(Clone, Copy, Debug)]
pub struct Store<'bytes> {
    /// The lent bytes.
    pub bytes: &'bytes [u8],
    /// How many of them, from the first on, are entries.
    pub used: usize,
}

/// Which store a value lies in.
#[derive(Clone, Copy, Debug, PartialEq, Eq, Hash)]
pub enum Source {
    /// The board's own store.
    Board,
    /// The defaults.
    Defaults,
}

/// Why a setting was not found or not added.
#[derive(Clone, Copy, Debug, PartialEq, Eq, Hash)]
pub enum SettingRefusal {
    /// 41: a store is no run of entries.
    Malformed,
    /// 42: no store has such an entry.
    NoEntry,
    /// 43: the value is too long.
    LongValue,
    /// 44: the version is below that of the last entry.
    FallingVersion,
    /// 45: there is no room behind the used bytes.
    Room,
}

impl SettingRefusal {
    /// Gives the number of the refusal.
    pub const fn number(self) -> u8 {
        match self {
            SettingRefusal::Malformed => 41,
            SettingRefusal::NoEntry => 42,
            SettingRefusal::LongValue => 43,
            SettingRefusal::FallingVersion => 44,
            SettingRefusal::Room => 45,
        }
    }
}

/// An entry, with the place of its value in the store.
struct Entry {
    version: u16,
    name: u8,
    value: Range<usize>,
}

/// Finds the value of a name at a version: the store that it lies in and its place there.
// OPEN: that a version asked for has 16 bits and a name 8, as in an entry, is a choice.
pub fn find_setting(
    board: Store<'_>,
    defaults: Store<'_>,
    name: u8,
    version: u16,
) -> Result<(Source, Range<usize>), SettingRefusal> {
    let stores = [(Source::Board, board), (Source::Defaults, defaults)];
    let mut found = Vec::new();
    for (source, store) in stores {
        let entries = entries_of(store).ok_or(SettingRefusal::Malformed)?;
        let fitting = |entry: &Entry| entry.name == name && entry.version <= version;
        let last = entries.into_iter().rfind(fitting);
        found.extend(last.map(|entry| (source, entry.value)));
    }
    found.into_iter().next().ok_or(SettingRefusal::NoEntry)
}

/// Gives the value of a name at a version as the bytes where they lie.
pub fn setting<'bytes>(
    board: Store<'bytes>,
    defaults: Store<'bytes>,
    name: u8,
    version: u16,
) -> Result<&'bytes [u8], SettingRefusal> {
    let (source, value) = find_setting(board, defaults, name, version)?;
    Ok(match source {
        Source::Board => &board.bytes[value],
        Source::Defaults => &defaults.bytes[value],
    })
}

/// Writes an entry behind the used bytes of a store and gives the new used length; a refusal
/// writes nothing.
pub fn add_setting(
    bytes: &mut [u8],
    used: usize,
    version: u16,
    name: u8,
    value: &[u8],
) -> Result<usize, SettingRefusal> {
    let entries = entries_of(Store { bytes, used }).ok_or(SettingRefusal::Malformed)?;
    if value.len() > MAX_VALUE {
        return Err(SettingRefusal::LongValue);
    }
    if entries.last().is_some_and(|last| version < last.version) {
        return Err(SettingRefusal::FallingVersion);
    }
    let [low, high] = version.to_le_bytes();
    let entry = [&[low, high, name, value.len() as u8], value].concat();
    // The store is a run of entries, so its used length is not beyond its bytes.
    let room = bytes[used..].get_mut(..entry.len());
    room.ok_or(SettingRefusal::Room)?.copy_from_slice(&entry);
    Ok(used + entry.len())
}

/// Reads all entries of a store; none if it is no run of entries.
fn entries_of(store: Store<'_>) -> Option<Vec<Entry>> {
    let used = store.bytes.get(..store.used)?;
    let mut entries: Vec<Entry> = Vec::new();
    let mut at = 0;
    while at < used.len() {
        let entry = entry_at(used, at)?;
        at = entry.value.end;
        entries.push(entry);
    }
    entries
        .is_sorted_by_key(|entry| entry.version)
        .then_some(entries)
}

/// Reads the entry at a place; none if it is cut short or its value is too long.
fn entry_at(used: &[u8], at: usize) -> Option<Entry> {
    let (front, behind) = used[at..].split_at_checked(FRONT_BYTES)?;
    let length = usize::from(front[3]);
    if length > MAX_VALUE || length > behind.len() {
        return None;
    }
    let start = at + FRONT_BYTES;
    Some(Entry {
        version: u16::from_le_bytes([front[0], front[1]]),
        name: front[2],
        value: start..start + length,
    })
}
