//! Settings with versions: stores of entries that are lent as bytes.

use core::error::Error;
use core::fmt;
use core::iter::FusedIterator;

use crate::raw;

/// The greatest length of a value.
pub const VALUE_MAX: usize = 64;

/// How many bytes of an entry stand before its value: version, name and length.
pub const ENTRY_FRONT: usize = 4;

/// Why a value is not found or an entry is not added; then nothing is changed.
///
/// ```
/// use lokhazim::SettingsRefusal;
///
/// assert_eq!(
///     SettingsRefusal::Missing.to_string(),
///     "refusal 42: neither store has an entry of this name at this version; ask at a higher version, or add one"
/// );
/// ```
#[derive(Clone, Copy, Debug, PartialEq, Eq, Hash)]
#[non_exhaustive]
pub enum SettingsRefusal {
    /// 41: a store is no run of entries.
    Malformed,
    /// 42: no entry of that name at that version or below.
    Missing,
    /// 43: the value has more than 64 bytes.
    ValueLength,
    /// 44: the version is below that of the store's last entry.
    VersionFalls,
    /// 45: the entry has no room behind the used bytes.
    Full,
}

impl SettingsRefusal {
    /// All of them, in the order of their numbers.
    pub const ALL: [SettingsRefusal; 5] = [
        SettingsRefusal::Malformed,
        SettingsRefusal::Missing,
        SettingsRefusal::ValueLength,
        SettingsRefusal::VersionFalls,
        SettingsRefusal::Full,
    ];

    /// The refusal's number, the same as in C.
    #[must_use]
    pub const fn number(self) -> u32 {
        match self {
            SettingsRefusal::Malformed => 41,
            SettingsRefusal::Missing => 42,
            SettingsRefusal::ValueLength => 43,
            SettingsRefusal::VersionFalls => 44,
            SettingsRefusal::Full => 45,
        }
    }

    /// The refusal that has this number, if one has.
    ///
    /// ```
    /// use lokhazim::SettingsRefusal;
    ///
    /// assert_eq!(SettingsRefusal::from_number(45), Some(SettingsRefusal::Full));
    /// assert_eq!(SettingsRefusal::from_number(40), None);
    /// ```
    #[must_use]
    pub fn from_number(number: u32) -> Option<SettingsRefusal> {
        let own = SettingsRefusal::ALL;
        own.into_iter().find(|refusal| refusal.number() == number)
    }

    /// What is wrong, and what to do.
    const fn advice(self) -> &'static str {
        match self {
            SettingsRefusal::Malformed => "a store is no run of entries: one is cut short, too long or of a falling version; take another copy of it",
            SettingsRefusal::Missing => "neither store has an entry of this name at this version; ask at a higher version, or add one",
            SettingsRefusal::ValueLength => "the value has more than 64 bytes; shorten it, or spread it over several names",
            SettingsRefusal::VersionFalls => "the version is below that of the store's last entry; add it at that version or a higher one",
            SettingsRefusal::Full => "the entry has no room behind the used bytes; lend more bytes, 4 and the value's length",
        }
    }
}

impl fmt::Display for SettingsRefusal {
    fn fmt(&self, f: &mut fmt::Formatter<'_>) -> fmt::Result {
        write!(f, "refusal {}: {}", self.number(), self.advice())
    }
}

impl Error for SettingsRefusal {}

/// The verdict that a reply's refusal number stands for.
///
/// # Panics
///
/// Where the number is one that the library is proved not to give: then another library has been
/// linked in its place.
fn verdict(number: u32) -> Result<(), SettingsRefusal> {
    if number == 0 {
        return Ok(());
    }
    Err(SettingsRefusal::from_number(number).unwrap_or_else(|| {
        panic!("refusal {number} is unknown; link the liblokhazim.a of this crate's version")
    }))
}

/// A store: lent bytes, of which the first so many are entries. Any bytes and any number may be
/// given; whether they are a run of entries is told by the calls.
#[derive(Clone, Copy, Debug, PartialEq, Eq, Hash)]
pub struct Store<'a> {
    bytes: &'a [u8],
    used: usize,
}

impl<'a> Store<'a> {
    /// The first `used` of these bytes.
    #[must_use]
    pub const fn new(bytes: &'a [u8], used: usize) -> Store<'a> {
        Store { bytes, used }
    }

    /// All of these bytes.
    #[must_use]
    pub const fn whole(bytes: &'a [u8]) -> Store<'a> {
        let used = bytes.len();
        Store { bytes, used }
    }

    /// Lists the entries in their order; of a malformed store the error and nothing else.
    ///
    /// ```
    /// use lokhazim::{Entry, SettingsRefusal, Store};
    ///
    /// let bytes = [1, 0, 7, 2, b'o', b'n', 2, 0, 7, 9];
    /// let mut entries = Store::new(&bytes, 6).entries();
    /// assert_eq!(entries.next(), Some(Ok(Entry { version: 1, name: 7, value: b"on" })));
    /// assert_eq!(entries.next(), None);
    /// let mut entries = Store::whole(&bytes).entries();
    /// assert_eq!(entries.next(), Some(Err(SettingsRefusal::Malformed)));
    /// assert_eq!(entries.next(), None);
    /// ```
    #[must_use]
    pub const fn entries(self) -> Entries<'a> {
        Entries {
            store: self,
            n: 0,
            done: false,
        }
    }
}

/// The value of a name at a version, as the bytes where they lie: that of the last entry of that
/// name whose version is not above it, in the board's store, else in the defaults.
///
/// # Errors
///
/// [`SettingsRefusal::Malformed`] where either store is no run of entries, then
/// [`SettingsRefusal::Missing`].
///
/// ```
/// use lokhazim::{add_setting, find_setting, SettingsRefusal, Store};
///
/// let defaults = [0, 0, 7, 3, b'o', b'f', b'f'];
/// let mut board = [0; 32];
/// let used = add_setting(&mut board, 0, 7, 2, b"on")?;
/// let (board, defaults) = (Store::new(&board, used), Store::whole(&defaults));
/// assert_eq!(find_setting(board, defaults, 7, 1)?, b"off");
/// assert_eq!(find_setting(board, defaults, 7, 2)?, b"on");
/// assert_eq!(find_setting(board, defaults, 8, 2), Err(SettingsRefusal::Missing));
/// # Ok::<(), SettingsRefusal>(())
/// ```
pub fn find_setting<'a>(
    board: Store<'a>,
    defaults: Store<'a>,
    name: u8,
    version: u16,
) -> Result<&'a [u8], SettingsRefusal> {
    let (a, b) = ((board.bytes, board.used), (defaults.bytes, defaults.used));
    let reply = raw::settings_find(a, b, name, version);
    verdict(reply.refusal)?;
    let store = if reply.store == 1 { board } else { defaults };
    Ok(&store.bytes[reply.start..reply.end])
}

/// Writes an entry behind the first `used` bytes of a store; gives the new used length. Bytes
/// behind the entry stay, and no answer at a version below the entry's changes.
///
/// # Errors
///
/// [`SettingsRefusal::Malformed`], [`SettingsRefusal::ValueLength`],
/// [`SettingsRefusal::VersionFalls`], [`SettingsRefusal::Full`], checked in this order; the bytes are
/// as they were.
///
/// ```
/// use lokhazim::{add_setting, SettingsRefusal};
///
/// let mut bytes = [0; 10];
/// let used = add_setting(&mut bytes, 0, 7, 513, b"on")?;
/// assert_eq!(bytes[..used], [1, 2, 7, 2, b'o', b'n']);
/// assert_eq!(add_setting(&mut bytes, used, 7, 512, b""), Err(SettingsRefusal::VersionFalls));
/// assert_eq!(add_setting(&mut bytes, used, 7, 513, b"x"), Err(SettingsRefusal::Full));
/// assert_eq!(add_setting(&mut bytes, used, 7, 513, b""), Ok(10));
/// # Ok::<(), SettingsRefusal>(())
/// ```
pub fn add_setting(
    bytes: &mut [u8],
    used: usize,
    name: u8,
    version: u16,
    value: &[u8],
) -> Result<usize, SettingsRefusal> {
    let reply = raw::settings_add(bytes, used, name, version, value);
    verdict(reply.refusal).map(|()| reply.used)
}

/// An entry of a store.
#[derive(Clone, Copy, Debug, PartialEq, Eq, Hash)]
pub struct Entry<'a> {
    /// Its version.
    pub version: u16,
    /// Its name's number.
    pub name: u8,
    /// Its value, as the bytes where they lie.
    pub value: &'a [u8],
}

/// The entries of a store, one after the other.
#[derive(Clone, Debug)]
pub struct Entries<'a> {
    store: Store<'a>,
    n: usize,
    done: bool,
}

impl<'a> Iterator for Entries<'a> {
    type Item = Result<Entry<'a>, SettingsRefusal>;

    fn next(&mut self) -> Option<Result<Entry<'a>, SettingsRefusal>> {
        if self.done {
            return None;
        }
        let Store { bytes, used } = self.store;
        let reply = raw::settings_entry(bytes, used, self.n);
        if reply.there == 0 {
            self.done = true;
            return verdict(reply.refusal).err().map(Err);
        }
        self.n += 1;
        Some(Ok(Entry {
            version: reply.version,
            name: reply.name,
            value: &bytes[reply.start..reply.end],
        }))
    }
}

impl FusedIterator for Entries<'_> {}
