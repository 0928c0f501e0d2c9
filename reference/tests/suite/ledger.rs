//! The ledger of a list of calls: it is fed arguments and answers only.

use lokhazim_reference::{Block, Handle, Kind, Options, HOLDS, QUOTAS};

use crate::state::{unit_in, Answer, Call};

/// An object of the ledger with each quota's holds on it.
#[derive(Clone, Debug, PartialEq, Eq)]
pub struct Object {
    pub handle: Handle,
    pub holds: [u32; QUOTAS],
}

impl Object {
    /// Gives the offset of the object's block.
    pub fn start(&self) -> u32 {
        self.handle.base - 8
    }

    /// Gives the offset behind the object.
    pub fn end(&self) -> u32 {
        self.handle.base + self.handle.length
    }

    /// Gives what a quota with holds on the object has paid for it.
    pub fn charge(&self) -> u32 {
        self.handle.length + 8
    }

    /// Tells whether any quota has holds on the object.
    fn is_held(&self) -> bool {
        self.holds.iter().any(|holds| *holds > 0)
    }

    /// Gives the object's block, with this serial in its header.
    fn block(&self, serial: u32) -> Block {
        Block {
            offset: self.start(),
            size: self.charge(),
            serial,
        }
    }
}

/// The ledger: heap length and grants as opened, the permissions that are left, the last
/// serial answered, the objects, and the blocks of objects that left and wait for a sweep.
#[derive(Clone, Debug)]
pub struct Ledger {
    pub heap_length: u32,
    pub grants: [u32; QUOTAS],
    /// Allocate, claim and free-all for each quota, true until it is cleared.
    pub permissions: [[bool; 3]; QUOTAS],
    pub last_serial: u32,
    pub objects: Vec<Object>,
    pub options: Options,
    pub quarantine: Vec<Block>,
}

impl Ledger {
    /// Feeds a call with its answer to the ledger.
    pub fn feed(&mut self, call: Call, answer: &Answer) {
        match (call, answer) {
            (Call::Allocate(q, _) | Call::Array(q, ..), Answer::Object(new)) => self.add(*new, q),
            (Call::Claim(q, h), _) => self.change_holds(h.serial, q, |holds| holds + 1),
            (Call::Release(q, h), _) => self.change_holds(h.serial, q, |holds| holds - 1),
            (Call::FreeAll(q), _) => {
                let serials: Vec<u32> = self.objects.iter().map(|o| o.handle.serial).collect();
                for serial in serials {
                    self.change_holds(serial, q, |_| 0);
                }
            }
            (Call::Reallocate(q, old, _), Answer::Object(new)) => {
                self.add(*new, q);
                self.change_holds(old.serial, q, |holds| holds - 1);
            }
            (Call::ClearPermissions(q, bits), _) => {
                for (bit, permission) in self.permissions[q as usize].iter_mut().enumerate() {
                    *permission &= bits & 1 << bit == 0;
                }
            }
            (Call::Sweep, _) => self.quarantine.clear(),
            _ => {}
        }
        if self.options.kind == Kind::Quarantine {
            let leaving = self.objects.iter().filter(|object| !object.is_held());
            let blocks = leaving.map(|object| object.block(0xFFFF_FFFF));
            self.quarantine.extend(blocks);
        }
        self.objects.retain(Object::is_held);
    }

    /// Adds an object with one hold of the quota.
    fn add(&mut self, handle: Handle, quota: u32) {
        let mut holds = [0; QUOTAS];
        holds[quota as usize] = 1;
        self.objects.push(Object { handle, holds });
        self.last_serial = handle.serial;
    }

    /// Changes a quota's holds on the object with this serial.
    fn change_holds(&mut self, serial: u32, quota: u32, change: impl Fn(u32) -> u32) {
        for object in &mut self.objects {
            if object.handle.serial == serial {
                let holds = &mut object.holds[quota as usize];
                *holds = change(*holds);
            }
        }
    }

    /// Finds the object that has all three numbers of the handle.
    pub fn named(&self, handle: Handle) -> Option<&Object> {
        self.objects.iter().find(|object| object.handle == handle)
    }

    /// Finds the object with the handle's serial that has every byte of its range, if the
    /// range has a byte.
    pub fn found(&self, handle: Handle) -> Option<&Object> {
        let first = u64::from(handle.base);
        let last = (first + u64::from(handle.length)).checked_sub(1)?;
        let with_serial = |object: &&Object| object.handle.serial == handle.serial;
        let object = self.objects.iter().find(with_serial)?;
        let bytes = u64::from(object.handle.base)..u64::from(object.end());
        let inside = first <= last && bytes.contains(&first) && bytes.contains(&last);
        inside.then_some(object)
    }

    /// Gives the grant less the charges of the objects that the quota holds.
    pub fn remainder(&self, quota: usize) -> i128 {
        let held = self.objects.iter().filter(|object| object.holds[quota] > 0);
        let paid: i128 = held.map(|object| i128::from(object.charge())).sum();
        i128::from(self.grants[quota]) - paid
    }

    /// Gives serial, quota and holds wherever the holds are above 0, in order.
    pub fn records(&self) -> Vec<(u32, u8, u32)> {
        let mut records = Vec::new();
        for object in &self.objects {
            for (quota, holds) in object.holds.iter().enumerate() {
                if *holds > 0 {
                    records.push((object.handle.serial, quota as u8, *holds));
                }
            }
        }
        records.sort_unstable();
        records
    }

    /// Gives the live and the quarantined blocks in order.
    fn taken_blocks(&self) -> Vec<Block> {
        let live = self.objects.iter().map(|o| o.block(o.handle.serial));
        let mut blocks: Vec<Block> = live.chain(self.quarantine.iter().copied()).collect();
        blocks.sort_by_key(|block| block.offset);
        blocks
    }

    /// Tells for each byte of the heap whether it lies in a live or a quarantined block.
    fn taken(&self) -> Vec<bool> {
        let mut taken = vec![false; self.heap_length as usize];
        for block in self.taken_blocks() {
            taken[block.offset as usize..(block.offset + block.size) as usize].fill(true);
        }
        taken
    }

    /// Gives the object length for a request, the least multiple of its unit that covers it; none
    /// if the request is not allowed.
    pub fn object_length(&self, request: u64) -> Option<u32> {
        let allowed = (1..=32_760).contains(&request);
        let unit = allowed.then(|| unit_in(self.options.edition, request as u32))?;
        let multiples = (1..).map(|times| times * unit);
        let mut enough = multiples.skip_while(|length| u64::from(*length) < request);
        enough.next()
    }

    /// Gives the base of the lowest suitable run for a length, trying every one.
    pub fn lowest_run(&self, length: u32) -> Option<u32> {
        let taken = self.taken();
        let alignment = unit_in(self.options.edition, length);
        let bases = (0..=self.heap_length).step_by(alignment as usize);
        let mut in_heap = bases.filter(|b| *b >= 8 && b + length <= self.heap_length);
        in_heap.find(|b| {
            let run = &taken[*b as usize - 8..(*b + length) as usize];
            run.iter().all(|byte| !byte)
        })
    }

    /// Gives the blocks that the objects and the quarantine cut the heap into.
    pub fn blocks(&self) -> Vec<Block> {
        let mut blocks = Vec::new();
        let mut at = 0;
        for taken in self.taken_blocks() {
            push_free(&mut blocks, at, taken.offset);
            blocks.push(taken);
            at = taken.offset + taken.size;
        }
        push_free(&mut blocks, at, self.heap_length);
        blocks
    }

    /// Gives the answer that a call must have, or the number of its refusal.
    pub fn predict(&self, call: Call) -> Result<Answer, u8> {
        match call {
            Call::Allocate(q, n) => self.predict_request(q, u64::from(n), None),
            Call::Array(q, n, s) => self.predict_request(q, u64::from(n) * u64::from(s), None),
            Call::Reallocate(q, h, n) => self.predict_request(q, u64::from(n), Some(h)),
            Call::Claim(q, h) => self.predict_claim(q, h),
            Call::Release(q, h) => {
                let object = self.releasable(q, self.found(h))?;
                let last = object.holds[q as usize] == 1;
                Ok(Answer::Number(if last { object.charge() } else { 0 }))
            }
            Call::CanRelease(q, h) => self.releasable(q, self.found(h)).map(|_| Answer::Yes),
            Call::FreeAll(q) => {
                self.permitted(q, 2)?;
                let left = self.remaining(q)?;
                let grant = i128::from(self.grants[q as usize]);
                Ok(Answer::Number((grant - left) as u32))
            }
            Call::Remaining(q) => Ok(Answer::Number(self.remaining(q)? as u32)),
            Call::Lend(h) => {
                self.found(h).ok_or(5)?;
                Ok(Answer::Part(h.base as usize..(h.base + h.length) as usize))
            }
            Call::ClearPermissions(q, bits) => {
                self.remaining(q)?;
                let weights = [1, 2, 4].into_iter().zip(self.permissions[q as usize]);
                let left = weights.filter(|(weight, set)| *set && bits & weight == 0);
                Ok(Answer::Number(left.map(|(weight, _)| weight).sum()))
            }
            Call::Sweep => Ok(Answer::Number(self.quarantine.iter().map(|b| b.size).sum())),
            Call::Step(place) => {
                let mut blocks = self.blocks().into_iter();
                let block = blocks.find(|block| block.offset as usize == place);
                Ok(Answer::Listed(block))
            }
        }
    }

    /// Gives a quota's remainder, or refusal 3.
    fn remaining(&self, quota: u32) -> Result<i128, u8> {
        let number = quota as usize;
        (number < QUOTAS).then(|| self.remainder(number)).ok_or(3)
    }

    /// Gives refusal 3 or 12 unless the quota has the permission of this bit.
    fn permitted(&self, quota: u32, bit: usize) -> Result<(), u8> {
        self.remaining(quota)?;
        let permission = self.permissions[quota as usize][bit];
        permission.then_some(()).ok_or(12)
    }

    /// Gives the object if the quota can release it, or refusal 3, 5 or 6.
    fn releasable<'a>(&self, quota: u32, object: Option<&'a Object>) -> Result<&'a Object, u8> {
        self.remaining(quota)?;
        let object = object.ok_or(5)?;
        let held = object.holds[quota as usize] > 0;
        held.then_some(object).ok_or(6)
    }

    /// Checks lines 8 and 9 for a charge.
    fn payable(&self, quota: u32, charge: u32) -> Result<(), u8> {
        if i128::from(charge) > self.remaining(quota)? {
            return Err(8);
        }
        if self.records().len() >= HOLDS {
            return Err(9);
        }
        Ok(())
    }

    /// Gives the answer of a claim.
    fn predict_claim(&self, quota: u32, handle: Handle) -> Result<Answer, u8> {
        self.permitted(quota, 1)?;
        let object = self.found(handle).ok_or(5)?;
        match object.holds[quota as usize] {
            0 => self.payable(quota, object.charge())?,
            255 => return Err(7),
            _ => {}
        }
        Ok(Answer::Number(object.handle.length))
    }

    /// Gives the answer of an allocate, array or reallocate.
    fn predict_request(&self, quota: u32, request: u64, old: Option<Handle>) -> Result<Answer, u8> {
        self.permitted(quota, 0)?;
        let length = self.object_length(request).ok_or(4)?;
        if let Some(old) = old {
            self.releasable(quota, self.named(old))?;
        }
        self.payable(quota, length + 8)?;
        if self.last_serial == 4_294_967_294 {
            return Err(10);
        }
        let serial = self.last_serial + 1;
        let base = self.lowest_run(length).ok_or(11)?;
        Ok(Answer::Object(Handle {
            base,
            length,
            serial,
        }))
    }
}

/// Adds a free block from start to end, if there are bytes between them.
fn push_free(blocks: &mut Vec<Block>, start: u32, end: u32) {
    if start < end {
        blocks.push(Block {
            offset: start,
            size: end - start,
            serial: 0,
        });
    }
}
