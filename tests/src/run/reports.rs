//! Audit reports, imported and exported by the proved code and by the reference.

use lokhazim_reference::{export_grants, import_grants, QUOTAS};

use crate::judge::compare::{save, Failure};
use crate::run::boundary::report as proved;
use crate::run::boundary::report::Imported;
use crate::run::lent::Lent;
use crate::seed::Seed;

/// The length of a line.
pub const LINE: usize = 54;

/// Both sides, and what was compared: how often each refusal came, and how many texts were exported.
pub struct Reports {
    lend: fn(&[u8]) -> Lent,
    imports: [u64; 4],
    exports: [u64; 2],
}

impl Reports {
    /// Lends texts with guard bytes around them.
    pub fn new() -> Reports {
        Reports::lending(Lent::guarded)
    }

    /// Lends texts in allocations of their exact length, whose ends a memory checker watches.
    pub fn for_memory_checker() -> Reports {
        Reports::lending(Lent::exact)
    }

    /// Lends texts in this way.
    fn lending(lend: fn(&[u8]) -> Lent) -> Reports {
        Reports {
            lend,
            imports: [0; 4],
            exports: [0; 2],
        }
    }

    /// Imports a text on both sides and gives what they agree on. Text and guards have to stay.
    pub fn import(&mut self, text: &[u8]) -> Result<Imported, Failure> {
        let mut lent = (self.lend)(text);
        let found = proved::import(lent.part());
        let expected = match import_grants(text) {
            Ok(grants) => Imported {
                grants,
                refusal: 0,
                line: 0,
            },
            Err((refusal, line)) => Imported {
                grants: [0; QUOTAS],
                refusal: u32::from(refusal.number()),
                line: line as u32,
            },
        };
        if found != expected {
            return self.differs(text, &format!("proved {found:?}, reference {expected:?}"));
        }
        if lent.part() != text || !lent.guards_hold() {
            return self.differs(text, "import wrote a byte");
        }
        self.imports[found.refusal.saturating_sub(30) as usize] += 1;
        Ok(found)
    }

    /// Exports grants into a lent text on both sides and gives what it then holds.
    pub fn export(&mut self, text: &[u8], grants: [u32; QUOTAS]) -> Result<Vec<u8>, Failure> {
        let mut lent = (self.lend)(text);
        let found = proved::export(lent.part(), grants);
        let mut other = text.to_vec();
        let expected = match export_grants(grants, &mut other) {
            Ok(length) => (0, length),
            Err(refusal) => (u32::from(refusal.number()), 0),
        };
        if found != expected {
            let words = format!("proved {found:?}, reference {expected:?} of {grants:?}");
            return self.differs(text, &words);
        }
        if lent.part() != other || !lent.guards_hold() {
            return self.differs(lent.part(), &format!("export left this of {grants:?}"));
        }
        self.exports[usize::from(found.0 != 0)] += 1;
        Ok(other)
    }

    /// The failure of a text, which is saved.
    fn differs<T>(&self, text: &[u8], what: &str) -> Result<T, Failure> {
        let done: u64 = self.imports.iter().chain(&self.exports).sum();
        let file = save(&format!("report-{done}.text"), text)?;
        Err(Failure(format!(
            "a report: {what}. The text is saved in {}",
            file.display()
        )))
    }

    /// How many texts were accepted, and refused by 31, 32 and 33.
    pub fn imports(&self) -> [u64; 4] {
        self.imports
    }

    /// How many texts were written, and how many had no room.
    pub fn exports(&self) -> [u64; 2] {
        self.exports
    }
}

impl Default for Reports {
    fn default() -> Reports {
        Reports::new()
    }
}

/// The line of a grant, as the rules show it.
pub fn line(grant: u32) -> Vec<u8> {
    format!("{grant:08x}{}\n", " 00000000".repeat(5)).into_bytes()
}

/// A text of so many lines.
pub fn lines(seed: &mut Seed, count: usize) -> Vec<u8> {
    (0..count).flat_map(|_| line(seed.odd_word())).collect()
}

/// The characters that a wrong one is taken from: near each end of the digits, and those that stand
/// in texts by mistake.
const CHARACTERS: [u8; 20] = *b"09afgAFG/:`@ \t\r\n\0x\x7f\xff";

/// Changes a text in one of many ways; most leave one bad line or more.
pub fn spoil(seed: &mut Seed, text: &mut Vec<u8>) {
    let at = seed.place(text.len() + 1);
    let wrong = match seed.percent(70) {
        true => seed.pick(&CHARACTERS),
        false => seed.byte(),
    };
    match seed.below(7) {
        0 | 1 => {
            if let Some(byte) = text.get_mut(at) {
                *byte = wrong;
            }
        }
        2 => text.insert(at, wrong),
        3 => {
            if at < text.len() {
                text.remove(at);
            }
        }
        4 => text.truncate(at),
        5 => {
            let word = seed.place(text.len() / LINE + 1) * LINE + 9 * (1 + seed.place(5));
            let digit = seed.place(8);
            if let Some(byte) = text.get_mut(word + digit) {
                *byte = seed.pick(b"123456789abcdef");
            }
        }
        _ => text.rotate_left(at),
    }
}

/// Imports the n-th text of a seed, spoiled or not, and exports grants of its own and back.
pub fn random(reports: &mut Reports, seed: u64, n: u64) -> Result<(), Failure> {
    let mut seed = Seed::of_case(seed, n);
    let count = seed.place(35);
    let mut text = lines(&mut seed, count);
    for _ in 0..seed.below(4) {
        spoil(&mut seed, &mut text);
    }
    reports.import(&text)?;
    let grants = std::array::from_fn(|_| seed.odd_word());
    let length = seed.between(1_700, 1_760) as usize;
    let before: Vec<u8> = (0..length).map(|_| seed.byte()).collect();
    let after = reports.export(&before, grants)?;
    reports.import(&after)?;
    Ok(())
}
