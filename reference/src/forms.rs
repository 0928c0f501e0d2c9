//! The forms of an image's stream: what each has room for, and how a state becomes a stream.
//!
//! A stream is made by appending its fields and read by taking them off its front. One pair of
//! functions serves every form; a form is only the list of what it has room for.

use crate::accounts::{Accounts, Hold, Quota, HOLDS, QUOTAS};
use crate::options::Options;
use crate::permissions::ALL_PERMISSIONS;

/// The stream bytes that carry the form's number and the two bytes behind it.
pub(crate) const FORM_BYTES: usize = 4;

/// A form: its number and what it has room for.
#[derive(Clone, Copy, Debug, PartialEq, Eq)]
pub(crate) struct Form {
    number: u16,
    quotas: usize,
    holds: usize,
    permissions: bool,
    options: bool,
}

/// The first form: few quotas and records, no permissions and no options.
pub(crate) const FORM_1: Form = Form {
    number: 1,
    quotas: 8,
    holds: 128,
    permissions: false,
    options: false,
};

/// The second form: all that the accounts have.
pub(crate) const FORM_2: Form = Form {
    number: 2,
    quotas: QUOTAS,
    holds: HOLDS,
    permissions: true,
    options: true,
};

impl Form {
    /// Gives the one of these forms that a stream's first bytes name, and the options that
    /// they carry; none if the form is another or has no room for such options.
    pub(crate) fn named_by(front: &[u8], forms: &[Form]) -> Option<(Form, Options)> {
        let [low, high, edition, kind] = *front else {
            return None;
        };
        let number = u16::from_le_bytes([low, high]);
        let form = forms.iter().copied().find(|form| form.number == number)?;
        let options = Options::of(kind, edition)?;
        let carried = form.options || options == Options::default();
        carried.then_some((form, options))
    }

    /// Gives the bytes with which the stream of such accounts starts.
    fn front(self, accounts: &Accounts) -> [u8; FORM_BYTES] {
        let [low, high] = self.number.to_le_bytes();
        let [edition, kind] = if self.options {
            [accounts.edition, accounts.kind]
        } else {
            [0, 0]
        };
        [low, high, edition, kind]
    }

    /// Gives the length of the stream of a heap of so many bytes.
    pub(crate) fn stream_bytes(self, heap_bytes: usize) -> usize {
        let quota_bytes = if self.permissions { 12 } else { 8 };
        FORM_BYTES + 8 + quota_bytes * self.quotas + 8 * self.holds + heap_bytes
    }

    /// Tells whether a reader would make the same accounts of what the form says about these.
    pub(crate) fn has_room_for(self, accounts: &Accounts) -> bool {
        let Some((_, options)) = Form::named_by(&self.front(accounts), &[self]) else {
            return false;
        };
        let mut fields = Vec::new();
        self.append_accounts(&mut fields, accounts);
        Fields(&fields).accounts(self, options).as_ref() == Some(accounts)
    }

    /// Gives the stream of a state, as far as the form has room for it.
    pub(crate) fn stream_of(self, heap: &[u8], accounts: &Accounts) -> Vec<u8> {
        let mut stream = Vec::with_capacity(self.stream_bytes(heap.len()));
        stream.extend(self.front(accounts));
        stream.extend((heap.len() as u32).to_le_bytes());
        self.append_accounts(&mut stream, accounts);
        stream.extend(heap);
        stream
    }

    /// Appends what the form has room for of the accounts.
    fn append_accounts(self, stream: &mut Vec<u8>, accounts: &Accounts) {
        stream.extend(accounts.last_serial.to_le_bytes());
        for quota in &accounts.quotas[..self.quotas] {
            stream.extend(quota.grant.to_le_bytes());
            stream.extend(quota.remainder.to_le_bytes());
            if self.permissions {
                stream.extend([quota.permissions, 0, 0, 0]);
            }
        }
        for hold in &accounts.holds[..self.holds] {
            stream.extend(hold.serial.to_le_bytes());
            stream.extend([hold.quota, hold.count, 0, 0]);
        }
    }
}

/// The fields of a stream that are still to be read.
pub(crate) struct Fields<'stream>(pub(crate) &'stream [u8]);

impl<'stream> Fields<'stream> {
    /// Takes so many bytes off the front.
    pub(crate) fn take(&mut self, bytes: usize) -> Option<&'stream [u8]> {
        let (taken, left) = self.0.split_at_checked(bytes)?;
        self.0 = left;
        Some(taken)
    }

    /// Takes a number of 32 bits.
    pub(crate) fn word(&mut self) -> Option<u32> {
        let bytes = self.take(4)?.try_into().ok()?;
        Some(u32::from_le_bytes(bytes))
    }

    /// Takes the accounts of a form, of a heap that was opened with these options; none where a
    /// byte has a value that the form rules out.
    ///
    /// Quotas and records that the form lacks are zero, permissions that it lacks are all set.
    pub(crate) fn accounts(&mut self, form: Form, options: Options) -> Option<Accounts> {
        let mut accounts = Accounts::opened([0; QUOTAS], options);
        accounts.last_serial = self.word()?;
        for quota in &mut accounts.quotas[..form.quotas] {
            *quota = self.quota(form)?;
        }
        for hold in &mut accounts.holds[..form.holds] {
            *hold = self.hold()?;
        }
        Some(accounts)
    }

    /// Takes a quota; its permissions have three bits, and three spare bytes behind them.
    fn quota(&mut self, form: Form) -> Option<Quota> {
        let grant = self.word()?;
        let remainder = self.word()?;
        let permissions = if form.permissions {
            let bits = self.word()?;
            u8::try_from(bits).ok().filter(|b| *b <= ALL_PERMISSIONS)?
        } else {
            ALL_PERMISSIONS
        };
        Some(Quota {
            grant,
            remainder,
            permissions,
        })
    }

    /// Takes a hold record, whose two spare bytes are zero.
    fn hold(&mut self) -> Option<Hold> {
        let serial = self.word()?;
        match *self.take(4)? {
            [quota, count, 0, 0] => Some(Hold {
                serial,
                quota,
                count,
            }),
            _ => None,
        }
    }
}
