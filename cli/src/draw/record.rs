//! Looks at a heap behind each call, and keeps what changed.

use std::collections::BTreeMap;

use lokhazim::{Accounts, Block, Heap, Refusal};

use crate::draw::story::{Holder, Part, Source, Span, Step, Story, Use};
use crate::failure::Failure;
use crate::script::Call;

/// The bytes of a header.
const HEADER: usize = 8;

/// Keeps what it saw of a heap.
pub struct Recorder<'n> {
    name: &'n str,
    /// The heap's bytes when it was looked at last, and its blocks by offset.
    bytes: Vec<u8>,
    blocks: BTreeMap<usize, Block>,
    /// The parts at the last look.
    parts: Vec<Part>,
    steps: Vec<Step>,
    /// The spans that have ended, and those that have not, by offset.
    ended: Vec<Span>,
    going_on: BTreeMap<usize, Span>,
}

impl<'n> Recorder<'n> {
    /// One that has seen nothing; the name is the input's.
    pub fn new(name: &'n str) -> Recorder<'n> {
        Recorder {
            name,
            bytes: Vec::new(),
            blocks: BTreeMap::new(),
            parts: Vec::new(),
            steps: Vec::new(),
            ended: Vec::new(),
            going_on: BTreeMap::new(),
        }
    }

    /// Looks at the heap.
    pub fn look(&mut self, heap: &Heap) -> Result<(), Failure> {
        let blocks = self.listed(heap);
        let blocks =
            blocks.map_err(|refusal| Failure::Refused(format!("{}: {refusal}", self.name)))?;
        self.parts = parts(&blocks, heap.accounts());
        self.blocks = blocks;
        self.bytes = heap.parts().0.to_vec();
        Ok(())
    }

    /// The blocks by offset. Each question to the library checks the whole heap; so it is not asked
    /// again for a block whose header is the one that it answered before.
    fn listed(&self, heap: &Heap) -> Result<BTreeMap<usize, Block>, Refusal> {
        let bytes = heap.parts().0;
        let mut blocks = BTreeMap::new();
        let mut offset = 0;
        while offset < bytes.len() {
            let header = offset..offset + HEADER;
            let known = self.blocks.get(&offset).copied();
            let same = self.bytes.get(header.clone()) == bytes.get(header);
            let Some(block) = known
                .filter(|_| same)
                .map_or_else(|| heap.block_at(offset), |block| Ok(Some(block)))?
            else {
                break;
            };
            blocks.insert(offset, block);
            offset = block.offset + block.size;
        }
        Ok(blocks)
    }

    /// Keeps a call and looks at the heap behind it.
    pub fn call(&mut self, call: Call, heap: &Heap) -> Result<(), Failure> {
        let place = self.steps.len();
        if call.answer.is_ok() {
            self.look(heap)?;
            self.compare(place);
        }
        let live = self.parts.iter().filter(|part| is_object(part)).count();
        self.steps.push(Step {
            line: call.line,
            answer: call.printed(),
            refusal: call.answer.err(),
            words: call.words,
            live,
            remaining: call.quota.and_then(|quota| heap.remaining(quota).ok()),
        });
        Ok(())
    }

    /// Ends the spans that are no more, and begins those that are new.
    fn compare(&mut self, place: usize) {
        let used = self.parts.iter().filter(|part| part.used != Use::Free);
        let mut before = std::mem::take(&mut self.going_on);
        for part in used {
            let span = match before.remove(&part.offset) {
                Some(span) if span.part == *part => span,
                other => {
                    self.ended.extend(other.map(|span| ended_by(span, place)));
                    Span {
                        part: part.clone(),
                        from: place,
                        to: None,
                    }
                }
            };
            self.going_on.insert(part.offset, span);
        }
        let gone = before.into_values().map(|span| ended_by(span, place));
        self.ended.extend(gone);
    }

    /// What was seen, with the heap at the end.
    pub fn told(self, name: String, source: Source, heap: &Heap) -> Story {
        let mut spans = self.ended;
        spans.extend(self.going_on.into_values());
        spans.sort_by_key(|span| (span.from, span.part.offset));
        Story {
            name,
            source,
            length: heap.parts().0.len(),
            kind: heap.kind(),
            edition: heap.edition(),
            accounts: heap.accounts().clone(),
            parts: self.parts,
            steps: self.steps,
            spans,
        }
    }
}

/// A span that a call has ended.
fn ended_by(span: Span, place: usize) -> Span {
    Span {
        to: Some(place),
        ..span
    }
}

/// Whether a part is an object's.
fn is_object(part: &Part) -> bool {
    matches!(part.used, Use::Object { .. })
}

/// The blocks with what they are used for.
fn parts(blocks: &BTreeMap<usize, Block>, accounts: &Accounts) -> Vec<Part> {
    let mut holders: BTreeMap<u32, Vec<Holder>> = BTreeMap::new();
    for hold in accounts.holds.iter().filter(|hold| hold.count > 0) {
        let holder = Holder {
            quota: hold.quota,
            count: hold.count,
        };
        holders.entry(hold.serial).or_default().push(holder);
    }
    let mut used_for = |block: &Block| match block.serial {
        _ if block.is_free() => Use::Free,
        _ if block.is_quarantined() => Use::Quarantined,
        serial => {
            let mut holders = holders.remove(&serial).unwrap_or_default();
            holders.sort_by_key(|holder| holder.quota);
            Use::Object { serial, holders }
        }
    };
    let parts = blocks.values().map(|block| Part {
        offset: block.offset,
        size: block.size,
        used: used_for(block),
    });
    parts.collect()
}
