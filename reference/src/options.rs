//! What is chosen when a heap is opened, and kept in its accounts.

/// What becomes of a block that nobody holds any more.
#[derive(Clone, Copy, Debug, Default, PartialEq, Eq, Hash)]
pub enum Kind {
    /// It is free at once.
    #[default]
    Plain,
    /// It waits in quarantine for a sweep.
    Quarantine,
}

impl Kind {
    /// The kinds in the order of their numbers.
    const BY_NUMBER: [Kind; 2] = [Kind::Plain, Kind::Quarantine];

    /// Gives the number by which accounts and images name the kind.
    pub const fn number(self) -> u8 {
        self as u8
    }

    /// Gives the kind of this number, if there is one.
    pub fn of(number: u8) -> Option<Kind> {
        Kind::BY_NUMBER.get(usize::from(number)).copied()
    }
}

/// Which table gives the unit of a length.
#[derive(Clone, Copy, Debug, Default, PartialEq, Eq, Hash)]
pub enum Edition {
    /// The first edition of the table.
    #[default]
    First,
    /// The second edition of the table.
    Second,
}

impl Edition {
    /// The editions in the order of their numbers.
    const BY_NUMBER: [Edition; 2] = [Edition::First, Edition::Second];

    /// Gives the number by which accounts and images name the edition, from 0.
    pub const fn number(self) -> u8 {
        self as u8
    }

    /// Gives the edition of this number, if there is one.
    pub fn of(number: u8) -> Option<Edition> {
        Edition::BY_NUMBER.get(usize::from(number)).copied()
    }
}

/// All that is chosen at opening.
// OPEN: how the choice is handed to the opening is free.
#[derive(Clone, Copy, Debug, Default, PartialEq, Eq, Hash)]
pub struct Options {
    /// What becomes of blocks that nobody holds any more.
    pub kind: Kind,
    /// Which table gives the unit of a length.
    pub edition: Edition,
}

impl Options {
    /// Gives the choice that these numbers name; none if one of them names nothing.
    pub(crate) fn of(kind: u8, edition: u8) -> Option<Options> {
        let kind = Kind::of(kind)?;
        let edition = Edition::of(edition)?;
        Some(Options { kind, edition })
    }
}
