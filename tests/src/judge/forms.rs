//! The forms of an image, by the harness's own reading of rules 13.2 to 13.4 and 16.3.

use lokhazim_reference::{ALL_PERMISSIONS, HOLDS, QUOTAS};

use crate::state::State;

/// The bytes of a frame, and where in it the carried bytes and the check begin.
pub const FRAME: usize = 512;
/// Where in a frame the carried bytes begin.
pub const CARRIED: usize = 4;
/// Where in a frame the check stands.
pub const CHECK: usize = 508;
/// The stream bytes that a frame carries.
pub const PIECE: usize = CHECK - CARRIED;

/// The stream bytes in front of the quotas.
pub const FRONT: usize = 12;

/// The stream byte that holds the edition in form 2.
pub const EDITION: usize = 2;

/// The stream byte that holds the kind in form 2.
pub const KIND: usize = 3;

/// The stream bytes of a record.
pub const RECORD: usize = 8;

/// A form: its number, and what it has room for.
#[derive(Clone, Copy, Debug, PartialEq, Eq)]
pub struct Form {
    /// The number.
    pub number: u32,
    /// How many quotas it has.
    pub quotas: usize,
    /// How many records it has.
    pub records: usize,
    /// The stream bytes of a quota; 12 where it has permissions.
    pub entry: usize,
    /// The name under which written images are counted.
    pub written: &'static str,
    /// The name under which images moved from this form are counted.
    pub moved: &'static str,
}

/// The form of earlier versions.
pub const FORM_1: Form = Form {
    number: 1,
    quotas: 8,
    records: 128,
    entry: 8,
    written: "written in form 1",
    moved: "moved up",
};

/// The form that carries every state.
pub const FORM_2: Form = Form {
    number: 2,
    quotas: QUOTAS,
    records: HOLDS,
    entry: 12,
    written: "written in form 2",
    moved: "moved down",
};

/// Both forms.
pub const FORMS: [Form; 2] = [FORM_1, FORM_2];

impl Form {
    /// Gives the other form.
    pub fn other(self) -> Form {
        match self.number {
            1 => FORM_2,
            _ => FORM_1,
        }
    }

    /// Gives the place of a quota in the stream.
    pub fn quota_at(self, number: usize) -> usize {
        FRONT + self.entry * number
    }

    /// Gives the place of a record in the stream.
    pub fn record_at(self, place: usize) -> usize {
        self.quota_at(self.quotas) + RECORD * place
    }

    /// Gives the stream bytes in front of the heap.
    pub fn head(self) -> usize {
        self.record_at(self.records)
    }

    /// Gives the length of the image of a heap of so many bytes.
    pub fn length(self, heap_length: usize) -> usize {
        FRAME * (self.head() + heap_length).div_ceil(PIECE)
    }

    /// Tells whether the form can carry a state (rule 16.6): a form without permissions plain ones of
    /// the first edition alone in which all are set, and no form a grant or a used record behind its
    /// own.
    pub fn carries(self, state: &State) -> bool {
        let accounts = &state.accounts;
        let marks = (accounts.kind, accounts.edition) == (0, 0) && !lacks_permission(state);
        let quotas = accounts.quotas[self.quotas..].iter();
        let records = accounts.holds[self.records..].iter();
        (self.entry == 12 || marks)
            && quotas.map(|quota| quota.grant).all(|grant| grant == 0)
            && records.copied().all(|hold| !hold.is_used())
    }
}

/// Tells whether a quota lacks a permission.
pub fn lacks_permission(state: &State) -> bool {
    let quotas = state.accounts.quotas.iter();
    quotas
        .map(|quota| quota.permissions)
        .any(|bits| bits != ALL_PERMISSIONS)
}

/// Gives the place in the image of a byte of the stream.
pub fn place_of(stream_byte: usize) -> usize {
    FRAME * (stream_byte / PIECE) + CARRIED + stream_byte % PIECE
}

/// Writes the checks of all frames anew.
pub fn seal(image: &mut [u8]) {
    for frame in image.chunks_exact_mut(FRAME) {
        let mut sum = 0_u32;
        for word in frame[..CHECK].chunks_exact(4) {
            sum = sum.wrapping_add(u32::from_le_bytes([word[0], word[1], word[2], word[3]]));
        }
        frame[CHECK..].copy_from_slice(&sum.to_le_bytes());
    }
}

/// Writes number and count of all frames anew, and the checks.
pub fn renumber(image: &mut [u8]) {
    let count = (image.len() / FRAME) as u16;
    for (number, frame) in image.chunks_exact_mut(FRAME).enumerate() {
        frame[..2].copy_from_slice(&(number as u16).to_le_bytes());
        frame[2..4].copy_from_slice(&count.to_le_bytes());
    }
    seal(image);
}

/// Writes a byte of the stream, with right checks.
pub fn put_byte(image: &mut [u8], place: usize, byte: u8) {
    image[place_of(place)] = byte;
    seal(image);
}

/// Writes a word of the stream, with right checks.
pub fn put_word(image: &mut [u8], place: usize, word: u32) {
    for (i, byte) in word.to_le_bytes().into_iter().enumerate() {
        image[place_of(place + i)] = byte;
    }
    seal(image);
}

/// Frames around the stream of a state, consistent or not, as far as the form has room for it. The
/// edition is byte 2 of form 2, the kind byte 3.
pub fn carry(form: Form, state: &State) -> Vec<u8> {
    let accounts = &state.accounts;
    let mut stream = Vec::with_capacity(form.head() + state.heap.len());
    let (edition, kind) = match form.number {
        1 => (0, 0),
        _ => (accounts.edition, accounts.kind),
    };
    let front = form.number | u32::from(edition) << 16 | u32::from(kind) << 24;
    for word in [front, state.heap.len() as u32, accounts.last_serial] {
        stream.extend(word.to_le_bytes());
    }
    for quota in &accounts.quotas[..form.quotas] {
        stream.extend(quota.grant.to_le_bytes());
        stream.extend(quota.remainder.to_le_bytes());
        let rest = [quota.permissions, 0, 0, 0];
        stream.extend(&rest[..form.entry - 8]);
    }
    for hold in &accounts.holds[..form.records] {
        stream.extend(hold.serial.to_le_bytes());
        stream.extend([hold.quota, hold.count, 0, 0]);
    }
    stream.extend(&state.heap);
    let mut image = vec![0; form.length(state.heap.len())];
    for (place, byte) in stream.into_iter().enumerate() {
        image[place_of(place)] = byte;
    }
    renumber(&mut image);
    image
}
