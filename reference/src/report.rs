//! Grants as the lines of an audit report: six words in hexadecimal, of which the first counts.

use crate::accounts::QUOTAS;

/// The words of a line.
const WORDS: usize = 6;

/// The digits of a word.
const DIGITS: usize = 8;

/// The bytes of a report with a line for every quota.
pub const REPORT_BYTES: usize = QUOTAS * WORDS * (DIGITS + 1);

/// Why a report was not taken or not written.
#[derive(Clone, Copy, Debug, PartialEq, Eq, Hash)]
pub enum ReportRefusal {
    /// 31: a character is wrong or in the wrong place.
    Shape,
    /// 32: a word behind the first is not zero.
    NotZero,
    /// 33: there are more lines than quotas.
    TooManyLines,
    /// 34: the lent text is too short for a report.
    Room,
}

impl ReportRefusal {
    /// Gives the number of the refusal.
    pub const fn number(self) -> u8 {
        match self {
            ReportRefusal::Shape => 31,
            ReportRefusal::NotZero => 32,
            ReportRefusal::TooManyLines => 33,
            ReportRefusal::Room => 34,
        }
    }
}

/// Takes the grants from a report, zero for lines that it lacks; or gives the refusal of the
/// first bad line and that line's number, from 1.
// OPEN: that an empty text is a report without lines is a choice.
pub fn import_grants(text: &[u8]) -> Result<[u32; QUOTAS], (ReportRefusal, usize)> {
    let mut grants = [0; QUOTAS];
    let lines = text.split_inclusive(|byte| *byte == b'\n');
    for (place, line) in lines.enumerate() {
        let bad = |refusal| (refusal, place + 1);
        let grant = grants.get_mut(place);
        let grant = grant.ok_or(bad(ReportRefusal::TooManyLines))?;
        *grant = read_line(line).map_err(bad)?;
    }
    Ok(grants)
}

/// Writes the report of all grants to the front of the lent text and gives its length; bytes
/// behind it stay.
pub fn export_grants(grants: [u32; QUOTAS], text: &mut [u8]) -> Result<usize, ReportRefusal> {
    let report: String = grants.into_iter().map(line_of).collect();
    let room = text.get_mut(..report.len()).ok_or(ReportRefusal::Room)?;
    room.copy_from_slice(report.as_bytes());
    Ok(report.len())
}

/// Reads the grant of a line that ends with its line feed, or gives refusal 31 or 32.
fn read_line(line: &[u8]) -> Result<u32, ReportRefusal> {
    let words = read_words(line).ok_or(ReportRefusal::Shape)?;
    match words[..] {
        [grant, ref reserved @ ..] if reserved.iter().all(|word| *word == 0) => Ok(grant),
        _ => Err(ReportRefusal::NotZero),
    }
}

/// Reads the words of a line; none if the line has another shape.
fn read_words(line: &[u8]) -> Option<Vec<u32>> {
    let words = line.strip_suffix(b"\n")?.split(|byte| *byte == b' ');
    let words = words.map(read_word).collect::<Option<Vec<u32>>>()?;
    (words.len() == WORDS).then_some(words)
}

/// Reads a word of eight digits, the letters in lower case.
fn read_word(word: &[u8]) -> Option<u32> {
    let digits = word.iter().map(|byte| match byte {
        b'0'..=b'9' => Some(u32::from(byte - b'0')),
        b'a'..=b'f' => Some(u32::from(byte - b'a') + 10),
        _ => None,
    });
    let digits = digits.collect::<Option<Vec<u32>>>()?;
    let right_length = digits.len() == DIGITS;
    right_length.then(|| digits.iter().fold(0, |value, digit| value * 16 + digit))
}

/// Gives the line of a grant with its line feed.
fn line_of(grant: u32) -> String {
    let reserved = [0; WORDS - 1];
    let words = [grant].into_iter().chain(reserved);
    let words: Vec<String> = words.map(|word| format!("{word:08x}")).collect();
    words.join(" ") + "\n"
}
