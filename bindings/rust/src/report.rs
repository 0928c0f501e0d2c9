//! Grants from the linker's audit report, and back.

use core::error::Error;
use core::fmt;

use crate::layout::{Grants, QUOTAS};
use crate::raw;

/// The length of a line of the report, its line feed included.
pub const REPORT_LINE: usize = 54;

/// The length of a text with a line for each quota.
pub const REPORT_LENGTH: usize = 1_728;

/// Why a text is not taken as grants, or grants are not written.
///
/// ```
/// use lokhazim::ReportRefusal;
///
/// assert_eq!(
///     ReportRefusal::Room.to_string(),
///     "refusal 34: the lent text has fewer than 1728 bytes; lend that many"
/// );
/// ```
#[derive(Clone, Copy, Debug, PartialEq, Eq, Hash)]
#[non_exhaustive]
pub enum ReportRefusal {
    /// 31: a wrong character, or one at a wrong place.
    Character,
    /// 32: a word after the first is not zero.
    Reserved,
    /// 33: something stands behind the last quota's line.
    TooMany,
    /// 34: the lent text is too short.
    Room,
}

impl ReportRefusal {
    /// All of them, in the order of their numbers.
    pub const ALL: [ReportRefusal; 4] = [
        ReportRefusal::Character,
        ReportRefusal::Reserved,
        ReportRefusal::TooMany,
        ReportRefusal::Room,
    ];

    /// The refusal's number, the same as in C.
    #[must_use]
    pub const fn number(self) -> u32 {
        match self {
            ReportRefusal::Character => 31,
            ReportRefusal::Reserved => 32,
            ReportRefusal::TooMany => 33,
            ReportRefusal::Room => 34,
        }
    }

    /// The refusal that has this number, if one has.
    ///
    /// ```
    /// use lokhazim::ReportRefusal;
    ///
    /// assert_eq!(ReportRefusal::from_number(33), Some(ReportRefusal::TooMany));
    /// assert_eq!(ReportRefusal::from_number(30), None);
    /// ```
    #[must_use]
    pub fn from_number(number: u32) -> Option<ReportRefusal> {
        let own = ReportRefusal::ALL;
        own.into_iter().find(|refusal| refusal.number() == number)
    }

    /// What is wrong, and what to do.
    const fn advice(self) -> &'static str {
        match self {
            ReportRefusal::Character => "a wrong character, or one at a wrong place; a line is six words of eight digits 0-9 and a-f, single spaces between them, and a line feed",
            ReportRefusal::Reserved => "a word after the first is not zero; only the first word, the grant, may be another number",
            ReportRefusal::TooMany => "something stands behind the last quota's line; a report has at most 32 lines",
            ReportRefusal::Room => "the lent text has fewer than 1728 bytes; lend that many",
        }
    }
}

impl fmt::Display for ReportRefusal {
    fn fmt(&self, f: &mut fmt::Formatter<'_>) -> fmt::Result {
        write!(f, "refusal {}: {}", self.number(), self.advice())
    }
}

impl Error for ReportRefusal {}

/// Why a text is not taken as grants, and its first bad line.
#[derive(Clone, Copy, Debug, PartialEq, Eq, Hash)]
pub struct ImportRefusal {
    /// The refusal: 31, 32 or 33.
    pub refusal: ReportRefusal,
    /// The number of the first bad line, from 1.
    pub line: u32,
}

impl fmt::Display for ImportRefusal {
    fn fmt(&self, f: &mut fmt::Formatter<'_>) -> fmt::Result {
        write!(f, "line {}: {}", self.line, self.refusal)
    }
}

impl Error for ImportRefusal {}

/// The verdict that a reply's refusal number stands for.
///
/// # Panics
///
/// Where the number is one that the library is proved not to give: then another library has been
/// linked in its place.
fn verdict(number: u32) -> Result<(), ReportRefusal> {
    if number == 0 {
        return Ok(());
    }
    Err(ReportRefusal::from_number(number).unwrap_or_else(|| {
        panic!("refusal {number} is unknown; link the liblokhazim.a of this crate's version")
    }))
}

/// The grants of a text's lines, for the quotas from 0 on; quotas without a line get 0. They are
/// what [`Heap::open`](crate::Heap::open) takes.
///
/// # Errors
///
/// [`ReportRefusal::Character`], [`ReportRefusal::Reserved`] or [`ReportRefusal::TooMany`], of the
/// first bad line.
///
/// ```
/// use lokhazim::{import_grants, ReportRefusal};
///
/// let text = b"00001000 00000000 00000000 00000000 00000000 00000000\n\
///              000000ff 00000000 00000000 00000000 00000000 00000000\n";
/// let grants = import_grants(text)?;
/// assert_eq!(grants[..3], [4096, 255, 0]);
///
/// let refused = import_grants(&text[..107]).unwrap_err();
/// assert_eq!((refused.refusal, refused.line), (ReportRefusal::Character, 2));
/// # Ok::<(), lokhazim::ImportRefusal>(())
/// ```
pub fn import_grants(text: &[u8]) -> Result<[u32; QUOTAS], ImportRefusal> {
    let reply = raw::report_import(text);
    let line = reply.line;
    verdict(reply.refusal)
        .map(|()| reply.grants.values)
        .map_err(|refusal| ImportRefusal { refusal, line })
}

/// Writes a line for each grant to the front of `text`; gives their length, [`REPORT_LENGTH`].
/// Bytes behind them stay.
///
/// # Errors
///
/// [`ReportRefusal::Room`] where `text` is shorter than that; it is as it was.
///
/// ```
/// use lokhazim::{export_grants, import_grants, QUOTAS, REPORT_LENGTH};
///
/// let mut text = [0; REPORT_LENGTH];
/// export_grants([4096; QUOTAS], &mut text)?;
/// assert!(text.starts_with(b"00001000 00000000 00000000 00000000 00000000 00000000\n"));
/// assert_eq!(import_grants(&text)?, [4096; QUOTAS]);
/// # Ok::<(), Box<dyn std::error::Error>>(())
/// ```
pub fn export_grants(grants: [u32; QUOTAS], text: &mut [u8]) -> Result<usize, ReportRefusal> {
    let reply = raw::report_export(text, Grants { values: grants });
    verdict(reply.refusal).map(|()| reply.length)
}
