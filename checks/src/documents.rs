//! A document in pieces: paragraphs and the cells of tables, each with its line.
//!
//! The head of a column may name a file in brackets; it is then the file of every name of the column that has none
//! beside it. A column with the head `rule` has rules.

#[derive(Debug, PartialEq, Eq)]
pub struct Piece {
    pub text: String,
    pub line: usize,
    /// The file that the head of the column names.
    pub file: Option<String>,
    /// Whether the column has rules.
    pub rules: bool,
}

/// A cell's head: the file that it names, and whether its column has rules.
#[derive(Clone, Default)]
struct Head {
    file: Option<String>,
    rules: bool,
}

/// The file that a text names in brackets, as `(words/specs/Words.antt)`.
pub fn file_in_brackets(text: &str) -> Option<&str> {
    text.match_indices('(')
        .find_map(|(at, _)| file_at(&text[at..]))
}

/// The file in the brackets that a text begins with.
pub fn file_at(text: &str) -> Option<&str> {
    let inside = text.strip_prefix('(')?.split(')').next()?;
    let plain = inside
        .chars()
        .all(|c| c.is_ascii_alphanumeric() || "_./-".contains(c));
    let ends = [".antt", ".rt", ".md"]
        .iter()
        .any(|end| inside.ends_with(end));
    (plain && ends && text[1..].contains(')')).then_some(inside)
}

fn cells(row: &str) -> Vec<&str> {
    let inner = row.trim_end().trim_start_matches('|');
    inner
        .strip_suffix('|')
        .unwrap_or(inner)
        .split('|')
        .collect()
}

#[derive(Default)]
struct Reader {
    pieces: Vec<Piece>,
    prose: Vec<String>,
    began: usize,
    heads: Vec<Head>,
    last_row: String,
    fenced: bool,
}

/// The pieces of a document.
pub fn pieces(text: &str) -> Vec<Piece> {
    let mut reader = Reader::default();
    for (at, line) in text.lines().enumerate() {
        reader.read(line, at + 1);
    }
    reader.close_prose();
    reader.pieces
}

impl Reader {
    fn close_prose(&mut self) {
        if !self.prose.is_empty() {
            let text = std::mem::take(&mut self.prose).join("\n");
            self.pieces.push(Piece {
                text,
                line: self.began,
                file: None,
                rules: false,
            });
        }
    }

    fn read(&mut self, line: &str, at: usize) {
        if line.starts_with("```") {
            self.close_prose();
            self.fenced = !self.fenced;
        } else if self.fenced {
        } else if line.starts_with("|---") {
            let head = |cell: &&str| Head {
                file: file_in_brackets(cell).map(str::to_string),
                rules: cell.trim() == "rule",
            };
            self.heads = cells(&self.last_row).iter().map(head).collect();
        } else if line.starts_with('|') {
            self.close_prose();
            self.read_row(line, at);
        } else {
            self.heads.clear();
            self.read_prose(line, at);
        }
    }

    fn read_row(&mut self, line: &str, at: usize) {
        self.last_row = line.to_string();
        for (column, cell) in cells(line).iter().enumerate() {
            let head = self.heads.get(column).cloned().unwrap_or_default();
            self.pieces.push(Piece {
                text: cell.to_string(),
                line: at,
                file: head.file,
                rules: head.rules,
            });
        }
    }

    fn read_prose(&mut self, line: &str, at: usize) {
        if line.is_empty() || line.starts_with('#') || line.starts_with("- ") {
            self.close_prose();
        }
        if line.is_empty() {
            return;
        }
        if self.prose.is_empty() {
            self.began = at;
        }
        self.prose.push(line.trim_start().to_string());
    }
}

#[cfg(test)]
mod tests {
    use super::*;

    #[test]
    fn paragraphs_and_lists() {
        let found = pieces("# Head\none\ntwo\n\n- three\n  four\n```\ncode\n```\nfive\n");
        let told: Vec<(&str, usize)> = found
            .iter()
            .map(|piece| (piece.text.as_str(), piece.line))
            .collect();
        assert_eq!(
            told,
            [("# Head\none\ntwo", 1), ("- three\nfour", 5), ("five", 10)]
        );
    }

    #[test]
    fn a_column_has_its_file_and_its_rules() {
        let found = pieces(
            "| rule | law (a/proofs/B.antt) |\n|---|---|\n| 5.1 | `x` |\n\n| other | table |\n",
        );
        let row: Vec<(&str, Option<&str>, bool)> = found[2..4]
            .iter()
            .map(|piece| (piece.text.trim(), piece.file.as_deref(), piece.rules))
            .collect();
        assert_eq!(
            row,
            [("5.1", None, true), ("`x`", Some("a/proofs/B.antt"), false)]
        );
        assert!(found[5..]
            .iter()
            .all(|piece| piece.file.is_none() && !piece.rules));
    }

    #[test]
    fn a_file_in_brackets() {
        assert_eq!(
            file_at("(words/specs/Words.antt) and"),
            Some("words/specs/Words.antt")
        );
        assert_eq!(file_at("(see words.md there)"), None);
        assert_eq!(file_in_brackets("law (of all) (a/B.rt)"), Some("a/B.rt"));
    }
}
