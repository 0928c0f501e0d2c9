//! What a picture tells: the blocks at the end, and how they came to be.

use std::collections::BTreeSet;

use lokhazim::{Accounts, Edition, Kind, Refusal};

/// Where a story comes from.
#[derive(Clone, Copy, Debug, PartialEq, Eq)]
pub enum Source {
    /// A script, whose calls are drawn too.
    Script,
    /// An image of the form with this number.
    Image(u32),
}

/// A quota's hold on an object.
#[derive(Clone, Copy, Debug, PartialEq, Eq)]
pub struct Holder {
    /// The quota's number.
    pub quota: u8,
    /// How often it holds the object.
    pub count: u8,
}

impl Holder {
    /// How the holder is called in the picture: its quota, and how often where that is not once.
    pub fn label(self) -> String {
        match self.count {
            1 => format!("q{}", self.quota),
            count => format!("q{} \u{d7}{count}", self.quota),
        }
    }
}

/// What a block is used for.
#[derive(Clone, Debug, PartialEq, Eq)]
pub enum Use {
    /// For nothing.
    Free,
    /// It waits for a sweep.
    Quarantined,
    /// For the object with this serial, which these quotas hold, in rising number.
    Object { serial: u32, holders: Vec<Holder> },
}

/// A block with what it is used for.
#[derive(Clone, Debug, PartialEq, Eq)]
pub struct Part {
    /// The offset of its header.
    pub offset: usize,
    /// Its size with the header.
    pub size: usize,
    /// What it is used for.
    pub used: Use,
}

impl Part {
    /// The offset behind it.
    pub fn end(&self) -> usize {
        self.offset + self.size
    }

    /// Who holds the object in it, in rising number; nobody, if there is none.
    pub fn holders(&self) -> &[Holder] {
        match &self.used {
            Use::Object { holders, .. } => holders,
            Use::Free | Use::Quarantined => &[],
        }
    }

    /// What is said of it where there is room for a sentence.
    pub fn words(&self) -> String {
        let place = format!("offset {}, {} bytes", self.offset, self.size);
        match &self.used {
            Use::Free => format!("free block at {place}"),
            Use::Quarantined => format!("quarantined block at {place}"),
            Use::Object { serial, holders } => {
                let (base, length) = (self.offset + 8, self.size - 8);
                let holders: Vec<String> = holders.iter().map(|h| h.label()).collect();
                let holders = holders.join(", ");
                format!(
                    "object {base} {length} {serial}, held by {holders}; its block is at {place}"
                )
            }
        }
    }
}

/// A block that was the same, with the same holders, over some calls.
#[derive(Clone, Debug, PartialEq, Eq)]
pub struct Span {
    /// The block; never a free one.
    pub part: Part,
    /// The place of the call behind which it is so.
    pub from: usize,
    /// The place of the call that ended it; none where it is so at the end.
    pub to: Option<usize>,
}

/// A call that was made, as it is told.
#[derive(Clone, Debug, PartialEq, Eq)]
pub struct Step {
    /// Its line in the script.
    pub line: usize,
    /// Its words.
    pub words: String,
    /// Its answer as the replay prints it.
    pub answer: String,
    /// Why it was refused, if it was.
    pub refusal: Option<Refusal>,
    /// How many objects are live behind it.
    pub live: usize,
    /// What then remains of its quota, if it names one that exists.
    pub remaining: Option<u32>,
}

impl Step {
    /// What is said of it on hover.
    pub fn hover(&self) -> String {
        let Step { line, words, .. } = self;
        match self.refusal {
            Some(refusal) => format!("line {line}: {words}: {refusal}"),
            None => format!("line {line}: {words}: {}", self.answer),
        }
    }
}

/// All that is drawn.
pub struct Story {
    /// How the input is called.
    pub name: String,
    /// What the input is.
    pub source: Source,
    /// The heap's length.
    pub length: usize,
    /// What becomes of released blocks.
    pub kind: Kind,
    /// Which table rounds.
    pub edition: Edition,
    /// The accounts at the end.
    pub accounts: Accounts,
    /// The blocks at the end.
    pub parts: Vec<Part>,
    /// The calls, the opening first; none of an image.
    pub steps: Vec<Step>,
    /// The spans over the calls, by where they begin and then by offset.
    pub spans: Vec<Span>,
}

impl Story {
    /// Every part that is drawn, at the end or over the calls.
    fn drawn(&self) -> impl Iterator<Item = &Part> {
        self.parts.iter().chain(self.spans.iter().map(|s| &s.part))
    }

    /// The quotas that hold something, at the end or over the calls.
    pub fn holders(&self) -> BTreeSet<u8> {
        let holders = self.drawn().flat_map(Part::holders);
        holders.map(|holder| holder.quota).collect()
    }

    /// Whether a quota holds an object more than once.
    pub fn has_counts(&self) -> bool {
        self.drawn().flat_map(Part::holders).any(|h| h.count > 1)
    }

    /// Whether a quarantined block is drawn.
    pub fn has_quarantined(&self) -> bool {
        self.drawn().any(|part| part.used == Use::Quarantined)
    }

    /// How many calls were refused.
    pub fn refused(&self) -> usize {
        self.steps.iter().filter(|s| s.refusal.is_some()).count()
    }

    /// What the picture is of, in a sentence.
    pub fn summary(&self) -> String {
        let kind = match self.kind {
            Kind::Plain => "plain".to_owned(),
            kind => format!("with {kind}"),
        };
        let (length, edition) = (self.length, self.edition);
        let heap = format!("a heap of {length} bytes, {kind}, edition {edition}");
        match self.source {
            Source::Image(form) => format!("an image of form {form}: {heap}"),
            Source::Script => {
                let calls = counted(self.steps.len().saturating_sub(1), "call");
                format!("a script of {calls}, {} refused: {heap}", self.refused())
            }
        }
    }
}

/// A number of things with their word.
pub fn counted(number: usize, thing: &str) -> String {
    match number {
        1 => format!("1 {thing}"),
        _ => format!("{number} {thing}s"),
    }
}
