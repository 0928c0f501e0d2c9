//! The exported functions of settings, with the layout of the crate `exports`.

use lokhazim_reference::Store;

/// What finding gives back: the refusal, the store (1 the board's, 2 the defaults), and the value's
/// start and end in it.
#[repr(C)]
#[derive(Clone, Copy, Debug, PartialEq, Eq)]
pub struct FindReply {
    /// The refusal's number, 0 where there is none.
    pub refusal: u32,
    /// 1 for the board's store, 2 for the defaults, 0 for none.
    pub store: u32,
    /// The value's first byte.
    pub start: usize,
    /// The byte behind the value.
    pub end: usize,
}

/// What adding gives back.
#[repr(C)]
struct AddReply {
    refusal: u32,
    used: usize,
}

/// What an entry gives back.
#[repr(C)]
#[derive(Clone, Copy, Debug, PartialEq, Eq)]
pub struct EntryReply {
    /// The refusal's number, 0 where there is none.
    pub refusal: u32,
    /// 1 where there is an entry.
    pub there: u32,
    /// Its version.
    pub version: u16,
    /// Its name.
    pub name: u8,
    /// Its value's first byte.
    pub start: usize,
    /// The byte behind its value.
    pub end: usize,
}

extern "C" {
    fn lokhazim_raw_settings_find(
        board: *const u8,
        board_length: usize,
        board_used: usize,
        defaults: *const u8,
        defaults_length: usize,
        defaults_used: usize,
        name: u8,
        version: u16,
    ) -> FindReply;
    fn lokhazim_raw_settings_add(
        store: *mut u8,
        length: usize,
        used: usize,
        name: u8,
        version: u16,
        value: *const u8,
        value_length: usize,
    ) -> AddReply;
    fn lokhazim_raw_settings_entry(
        store: *const u8,
        length: usize,
        used: usize,
        n: usize,
    ) -> EntryReply;
}

/// Finds a value by the proved code.
pub fn find(board: Store<'_>, defaults: Store<'_>, name: u8, version: u16) -> FindReply {
    let (a, b) = (board.bytes, defaults.bytes);
    // Safety: pointers and lengths are those of two borrowed slices, and the function accepts any
    // bytes and numbers.
    unsafe {
        lokhazim_raw_settings_find(
            a.as_ptr(),
            a.len(),
            board.used,
            b.as_ptr(),
            b.len(),
            defaults.used,
            name,
            version,
        )
    }
}

/// Adds an entry by the proved code and gives the refusal and the used length.
pub fn add(bytes: &mut [u8], used: usize, name: u8, version: u16, value: &[u8]) -> (u32, usize) {
    let (at, length) = (bytes.as_mut_ptr(), bytes.len());
    let (from, count) = (value.as_ptr(), value.len());
    // Safety: as above.
    let reply = unsafe { lokhazim_raw_settings_add(at, length, used, name, version, from, count) };
    (reply.refusal, reply.used)
}

/// The n-th entry by the proved code.
pub fn entry(store: Store<'_>, n: usize) -> EntryReply {
    let bytes = store.bytes;
    // Safety: as above.
    unsafe { lokhazim_raw_settings_entry(bytes.as_ptr(), bytes.len(), store.used, n) }
}
