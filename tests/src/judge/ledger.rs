//! The ledger (rules, section 9 and rule 22.10), made from the arguments and the answers of calls
//! alone.

use std::ops::Range;

use lokhazim_reference::{Handle, HOLDS, QUOTAS};

use crate::judge::cut::{live_handles, quarantined, GREATEST_SERIAL};
use crate::state::{Answer, Call, Choice, State};

/// An object of the ledger with each quota's holds on it.
#[derive(Clone, Debug, PartialEq, Eq)]
pub struct Object {
    /// Base, length and serial.
    pub handle: Handle,
    /// The holds of each quota.
    pub holds: [u32; QUOTAS],
}

impl Object {
    /// The place of the object's block in the heap.
    pub fn block(&self) -> Range<usize> {
        let end = self.handle.base + self.handle.length;
        self.handle.base as usize - 8..end as usize
    }

    /// What a quota with holds on the object has paid.
    pub fn charge(&self) -> u32 {
        self.handle.length + 8
    }
}

/// The ledger: the grants as opened, the objects and the blocks in quarantine. Heap length, kind,
/// edition, permissions and last serial belong to what the caller handed in and was answered.
#[derive(Clone, Debug)]
pub struct Ledger {
    /// The length of the heap.
    pub heap_length: u32,
    /// The grants as opened.
    pub grants: [u32; QUOTAS],
    /// The permissions that were not cleared since.
    pub permissions: [u8; QUOTAS],
    /// The last serial that was answered.
    pub last_serial: u32,
    /// The objects.
    pub objects: Vec<Object>,
    /// Whether the heap was opened with quarantine.
    pub quarantines: bool,
    /// The places of the blocks in quarantine, in the order in which they came there.
    pub quarantined: Vec<Range<usize>>,
    /// The number of the edition with which the heap was opened.
    pub edition: u8,
}

/// A request as rounded: the object's length, and what its base is a multiple of.
#[derive(Clone, Copy, Debug, PartialEq, Eq)]
pub struct Request {
    /// The alignment of the base.
    pub alignment: u32,
    /// The object's length.
    pub length: u32,
}

/// Gives the unit of a length in the edition of this number (rules 6.1 and 23.3).
pub fn unit(edition: u8, length: u32) -> u32 {
    match (edition, length) {
        (0, 0..8_192) => 8,
        (0, 8_192..16_384) => 16,
        (0, 16_384..32_768) => 32,
        (0, _) => 64,
        (_, 0..=4_088) => 8,
        (_, 4_089..=8_176) => 16,
        (_, 8_177..=16_352) => 32,
        (_, 16_353..=32_704) => 64,
        _ => 128,
    }
}

/// Rounds a request in an edition (rules 6.2 and 6.3); none for what refusal 4 is given for.
pub fn request(edition: u8, bytes: u64) -> Option<Request> {
    let unit = |length| unit(edition, length);
    let asked = match bytes {
        0 | 32_761.. => return None,
        _ => bytes as u32,
    };
    let length = asked.div_ceil(unit(asked)) * unit(asked);
    let alignment = unit(length);
    Some(Request { alignment, length })
}

impl Ledger {
    /// The ledger after an accepted opening.
    pub fn opened(heap_length: u32, grants: [u32; QUOTAS], choice: Choice) -> Ledger {
        Ledger {
            heap_length,
            grants,
            permissions: [7; QUOTAS],
            last_serial: 0,
            objects: Vec::new(),
            quarantines: choice.kind != 0,
            quarantined: Vec::new(),
            edition: u8::from(choice.edition != 0),
        }
    }

    /// The ledger of a consistent state that no list of calls led to: an entry for each live
    /// object, with the counts of its records as holds, the accounts' grants, and the quarantined
    /// blocks.
    pub fn read_off(state: &State) -> Ledger {
        let accounts = &state.accounts;
        let objects = live_handles(&state.heap).into_iter().map(|handle| {
            let mut holds = [0; QUOTAS];
            for hold in accounts.holds.iter().filter(|h| h.serial == handle.serial) {
                holds[usize::from(hold.quota)] = u32::from(hold.count);
            }
            Object { handle, holds }
        });
        Ledger {
            heap_length: state.heap.len() as u32,
            grants: accounts.quotas.map(|quota| quota.grant),
            permissions: accounts.quotas.map(|quota| quota.permissions),
            last_serial: accounts.last_serial,
            objects: objects.collect(),
            quarantines: accounts.kind == 1,
            quarantined: quarantined(&state.heap),
            edition: accounts.edition,
        }
    }

    /// Records a call with its answer.
    pub fn record(&mut self, call: Call, answer: &Answer) {
        if !answer.is_accepted() {
            return;
        }
        match call {
            Call::Open(grants, choice) => *self = Ledger::opened(self.heap_length, grants, choice),
            Call::Allocate(q, _) | Call::Array(q, ..) => self.add(q, answer.handle()),
            Call::Claim(q, h) => self.change(h.serial, q, |holds| holds + 1),
            Call::Release(q, h) => self.change(h.serial, q, |holds| holds - 1),
            Call::FreeAll(q) => {
                let all = self.objects.iter_mut();
                all.for_each(|object| object.holds[q as usize] = 0);
            }
            Call::Reallocate(q, old, _) => {
                self.add(q, answer.handle());
                self.change(old.serial, q, |holds| holds - 1);
            }
            Call::ClearPermissions(q, n) => self.permissions[q as usize] &= !(n as u8),
            Call::Sweep => self.quarantined.clear(),
            _ => {}
        }
        let held = |object: &Object| object.holds.iter().any(|holds| *holds > 0);
        if self.quarantines {
            let left = self.objects.iter().filter(|object| !held(object));
            self.quarantined.extend(left.map(Object::block));
        }
        self.objects.retain(held);
    }

    /// Gives the sum of the sizes of the blocks in quarantine.
    pub fn waiting(&self) -> u64 {
        let sizes = self.quarantined.iter().map(|block| block.len() as u64);
        sizes.sum()
    }

    /// Adds the answered handle with one hold of the quota.
    fn add(&mut self, quota: u32, handle: Handle) {
        let mut holds = [0; QUOTAS];
        holds[quota as usize] = 1;
        self.objects.push(Object { handle, holds });
        self.last_serial = handle.serial;
    }

    /// Changes a quota's holds on the object with this serial.
    fn change(&mut self, serial: u32, quota: u32, change: impl Fn(u32) -> u32) {
        for object in &mut self.objects {
            if object.handle.serial == serial {
                let holds = &mut object.holds[quota as usize];
                *holds = change(*holds);
            }
        }
    }

    /// Gives the grant less the charges of the objects that the quota has holds on.
    pub fn remainder(&self, quota: usize) -> i64 {
        let held = self.objects.iter().filter(|object| object.holds[quota] > 0);
        let charges: i64 = held.map(|object| i64::from(object.charge())).sum();
        i64::from(self.grants[quota]) - charges
    }

    /// Gives serial, quota and count of each hold above 0, in order.
    pub fn records(&self) -> Vec<(u32, usize, u32)> {
        let mut records = Vec::new();
        for object in &self.objects {
            for (quota, count) in object.holds.iter().enumerate().filter(|(_, n)| **n > 0) {
                records.push((object.handle.serial, quota, *count));
            }
        }
        records.sort_unstable();
        records
    }

    /// Finds the object that the handle names (rule 4.3): it has the handle's serial, and among its
    /// bytes are the first and the last of the handle's, of which there is at least one.
    pub fn named(&self, handle: Handle) -> Option<&Object> {
        let first = i64::from(handle.base);
        let last = first + i64::from(handle.length) - 1;
        self.objects.iter().find(|object| {
            let start = i64::from(object.handle.base);
            let bytes = start..start + i64::from(object.handle.length);
            object.handle.serial == handle.serial
                && first <= last
                && bytes.contains(&first)
                && bytes.contains(&last)
        })
    }

    /// Finds the object whose whole handle this is (rule 4.6).
    pub fn whole(&self, handle: Handle) -> Option<&Object> {
        self.objects.iter().find(|object| object.handle == handle)
    }

    /// Gives the base of the lowest suitable run of a request: every multiple of the alignment is
    /// tried, and the bytes of live and quarantined blocks in its run are counted (rule 22.5).
    pub fn lowest_run(&self, request: Request) -> Option<u32> {
        let mut taken = vec![0; self.heap_length as usize];
        for object in &self.objects {
            taken[object.block()].fill(1);
        }
        for block in &self.quarantined {
            taken[block.clone()].fill(1);
        }
        let mut taken_before = vec![0];
        for byte in taken {
            taken_before.push(taken_before[taken_before.len() - 1] + byte);
        }
        let bases = (0..=self.heap_length).step_by(request.alignment as usize);
        let mut inside = bases.filter(|b| *b >= 8 && b + request.length <= self.heap_length);
        inside.find(|b| {
            let (start, end) = (*b as usize - 8, (*b + request.length) as usize);
            taken_before[start] == taken_before[end]
        })
    }

    /// Gives the permission that a call needs (rule 15.5), by its bit, or 0 for a call that needs none.
    fn needed(call: Call) -> u8 {
        match call {
            Call::Allocate(..) | Call::Array(..) | Call::Reallocate(..) => 1,
            Call::Claim(..) => 2,
            Call::FreeAll(_) => 4,
            _ => 0,
        }
    }

    /// Gives the first line but 1, 2 and 11 of the table of refusals that holds for a call, or 0.
    pub fn refusal_before_space(&self, call: Call) -> u32 {
        match self.permissions.get(call.quota().unwrap_or(0) as usize) {
            None => return 3,
            Some(bits) if bits & Ledger::needed(call) != Ledger::needed(call) => return 12,
            Some(_) => {}
        }
        match call {
            Call::Allocate(q, n) => self.request_refusal(q, u64::from(n), None),
            Call::Array(q, n, s) => self.request_refusal(q, u64::from(n) * u64::from(s), None),
            Call::Reallocate(q, h, n) => self.request_refusal(q, u64::from(n), Some(h)),
            Call::Claim(q, h) => self.claim_refusal(q, h),
            Call::Release(q, h) | Call::CanRelease(q, h) => Ledger::held(q, self.named(h)),
            Call::Lend(h) | Call::Write(h, ..) if self.named(h).is_none() => 5,
            _ => 0,
        }
    }

    /// Lines 4 to 10 for a request.
    fn request_refusal(&self, quota: u32, bytes: u64, old: Option<Handle>) -> u32 {
        let Some(request) = request(self.edition, bytes) else {
            return 4;
        };
        let old_refusal = old.map_or(0, |old| Ledger::held(quota, self.whole(old)));
        if old_refusal != 0 {
            return old_refusal;
        }
        match self.charge_refusal(quota, request.length + 8) {
            0 if self.last_serial == GREATEST_SERIAL => 10,
            refusal => refusal,
        }
    }

    /// Lines 5 and 6 for an object that was looked for.
    fn held(quota: u32, object: Option<&Object>) -> u32 {
        match object {
            None => 5,
            Some(object) if object.holds[quota as usize] == 0 => 6,
            Some(_) => 0,
        }
    }

    /// Lines 8 and 9.
    fn charge_refusal(&self, quota: u32, charge: u32) -> u32 {
        if i64::from(charge) > self.remainder(quota as usize) {
            return 8;
        }
        match self.records().len() {
            HOLDS.. => 9,
            _ => 0,
        }
    }

    /// Lines 5 to 9 for a claim.
    fn claim_refusal(&self, quota: u32, handle: Handle) -> u32 {
        match self.named(handle) {
            None => 5,
            Some(object) => match object.holds[quota as usize] {
                0 => self.charge_refusal(quota, object.charge()),
                255.. => 7,
                _ => 0,
            },
        }
    }
}
