//! Why the command ends without success.

/// Why the command ends without success; each kind has its exit status.
#[derive(Debug)]
pub enum Failure {
    /// The proved library refuses what it was given. Status 1.
    Refused(String),
    /// Two images differ, which is printed already. Status 1.
    Differ,
    /// Two images can't be compared. Status 2, as `cmp` has it, since 1 says that they differ.
    NotCompared(String),
    /// The words of the command line are wrong. Status 2.
    Usage(String),
    /// A file can't be read or written. Status 2.
    File(String),
}

impl Failure {
    /// The exit status.
    pub fn status(&self) -> u8 {
        match self {
            Failure::Refused(_) | Failure::Differ => 1,
            Failure::NotCompared(_) | Failure::Usage(_) | Failure::File(_) => 2,
        }
    }

    /// What is said of it.
    pub fn words(&self) -> Option<&str> {
        match self {
            Failure::Differ => None,
            Failure::Refused(words)
            | Failure::NotCompared(words)
            | Failure::Usage(words)
            | Failure::File(words) => Some(words),
        }
    }
}
