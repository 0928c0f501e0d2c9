//! The options by which a script's heap is opened.

use lokhazim::{Edition, Kind, Options};

/// Why an image takes none of them.
pub const OF_IMAGES: &str =
    "an image has its own kind and edition; --quarantine and --edition are for scripts";

/// Takes `--quarantine`, or `--edition` and the word behind it. Gives none for any other word, and
/// else whether it was said before.
pub fn option<'w>(
    word: &str,
    behind: &mut impl Iterator<Item = &'w str>,
    options: &mut Option<Options>,
) -> Result<Option<bool>, &'static str> {
    match word {
        "--quarantine" => {
            let chosen = options.get_or_insert_default();
            let before = std::mem::replace(&mut chosen.kind, Kind::Quarantine);
            Ok(Some(before == Kind::Quarantine))
        }
        "--edition" => {
            let chosen = options.get_or_insert_default();
            chosen.edition = match behind.next() {
                Some("1") => Edition::First,
                Some("2") => Edition::Second,
                _ => return Err("--edition is 1 or 2"),
            };
            Ok(Some(false))
        }
        _ => Ok(None),
    }
}
