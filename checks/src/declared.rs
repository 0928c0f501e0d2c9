//! What files of the crates declare.
//!
//! Of `.antt`: definitions, laws, records and their fields, data types and their cases. Of `.rt`: functions, structs
//! and their fields, enums and their cases, constants. What has an owner is listed by itself and behind its owner:
//! `Owner.field`, `Owner::method`. What has an attribute begins in the attribute's line.

use crate::files;
use std::fmt;

#[derive(Clone, Copy, Debug, PartialEq, Eq)]
pub enum Kind {
    Plain,
    /// What a definition has for itself, below its `where`.
    Local,
    Function,
    PublicFunction,
    ExportedFunction,
}

impl Kind {
    pub fn is_function(self) -> bool {
        matches!(
            self,
            Kind::Function | Kind::PublicFunction | Kind::ExportedFunction
        )
    }
}

impl fmt::Display for Kind {
    fn fmt(&self, out: &mut fmt::Formatter) -> fmt::Result {
        out.write_str(match self {
            Kind::Plain => "",
            Kind::Local => "local",
            Kind::Function => "function",
            Kind::PublicFunction => "public function",
            Kind::ExportedFunction => "exported function",
        })
    }
}

#[derive(Clone, Debug, PartialEq, Eq)]
pub struct Declaration {
    pub file: String,
    pub name: String,
    pub kind: Kind,
    pub line: usize,
}

/// The declarations of all files of the crates.
pub fn of_crates() -> Result<Vec<Declaration>, Vec<String>> {
    let mut all = Vec::new();
    for file in files::below(&["crates"], &[".rt", ".antt"])? {
        all.extend(of_text(&file, &files::text(&file)?));
    }
    Ok(all)
}

/// The declarations of some files, a line each.
pub fn list(names: &[&str]) -> Result<String, Vec<String>> {
    let mut lines = Vec::new();
    for file in names {
        for found in of_text(file, &files::text(file)?) {
            lines.push(format!(
                "{}\t{}\t{}\t{}",
                found.file, found.name, found.kind, found.line
            ));
        }
    }
    Ok(lines.join("\n"))
}

/// The declarations of a file's text.
pub fn of_text(file: &str, text: &str) -> Vec<Declaration> {
    let mut reader = Reader {
        file,
        found: Vec::new(),
        owner: None,
        line: 0,
        attribute: 0,
    };
    if file.ends_with(".antt") {
        reader.read_antt(text);
    } else {
        reader.read_rt(text);
    }
    reader.found
}

/// The words of a line without those that only qualify a declaration.
fn words(line: &str) -> Vec<&str> {
    let qualifies = |word: &&str| matches!(*word, "pub" | "pub(crate)" | "unfoldable" | "abbrev");
    line.split_whitespace().skip_while(qualifies).collect()
}

/// The letters, digits and underscores at the front of a word.
fn front(word: &str) -> &str {
    let end = word
        .find(|c: char| !c.is_ascii_alphanumeric() && c != '_')
        .unwrap_or(word.len());
    &word[..end]
}

/// The type of an `impl` that has parameters of its own, as `impl<T: Copy> Pair<T> {`.
fn with_parameters(line: &str) -> Option<&str> {
    let rest = line.strip_prefix("impl<")?;
    let mut depth = 1;
    let mut before = ' ';
    for (at, c) in rest.char_indices() {
        match c {
            '<' => depth += 1,
            '>' if before != '-' => depth -= 1,
            _ => {}
        }
        if depth == 0 {
            return Some(front(rest[at + 1..].trim_start()));
        }
        before = c;
    }
    None
}

struct Reader<'a> {
    file: &'a str,
    found: Vec<Declaration>,
    owner: Option<String>,
    line: usize,
    attribute: usize,
}

impl Reader<'_> {
    fn emit(&mut self, name: &str, kind: Kind) {
        let line = if self.attribute > 0 && self.attribute == self.line - 1 {
            self.attribute
        } else {
            self.line
        };
        let name = name.replace(['«', '»'], "");
        self.found.push(Declaration {
            file: self.file.to_string(),
            name,
            kind,
            line,
        });
    }

    /// A member of the owner that the lines above have opened.
    fn member(&mut self, name: &str, joint: &str, kind: Kind) {
        let Some(owner) = self.owner.clone() else {
            return self.emit(name, kind);
        };
        self.emit(name, Kind::Plain);
        self.emit(&format!("{owner}{joint}{name}"), kind);
    }

    fn read_antt(&mut self, text: &str) {
        // Declarations of the file stand at its margin, those of a module below it two places further.
        let mut level = 0;
        for (at, line) in text.lines().enumerate() {
            self.line = at + 1;
            let code = line.trim_start();
            if code.is_empty() || code.starts_with("--") {
                continue;
            }
            let indent = line.len() - code.len();
            while indent < level {
                level -= 2;
            }
            if indent == level {
                self.owner = None;
            }
            let words = words(line);
            match words[..] {
                ["module", ..] if indent == level => level += 2,
                ["record" | "data", name, ..] if !name.starts_with(['{', '(', '=']) => {
                    self.emit(name, Kind::Plain);
                    self.owner = Some(name.to_string());
                }
                [name, ":", _, ..] if !name.contains(['(', ')', '{', '}', '→', '×', ',', ';']) =>
                {
                    let own = indent == level || self.owner.is_some();
                    self.member(name, ".", if own { Kind::Plain } else { Kind::Local });
                }
                _ => {}
            }
        }
    }

    fn read_rt(&mut self, text: &str) {
        let mut inside = "";
        for (at, line) in text.lines().enumerate() {
            self.line = at + 1;
            let code = line.trim_start();
            if code.starts_with("//") {
                continue;
            }
            if code.starts_with("#[") {
                self.attribute = self.line;
                continue;
            }
            if line.starts_with('}') {
                self.owner = None;
                inside = "";
                continue;
            }
            if let Some(name) = with_parameters(line) {
                self.owner = Some(name.to_string());
                inside = "impl";
                continue;
            }
            let public = code.starts_with("pub ");
            let words = words(line);
            match words[..] {
                [what @ ("struct" | "enum" | "impl"), name, ..] => {
                    inside = match what {
                        "struct" => "struct",
                        "enum" => "enum",
                        _ => "impl",
                    };
                    let name = name.split(['<', ';', '{', '(']).next().unwrap_or_default();
                    if what != "impl" {
                        self.owner = None;
                        self.emit(name, Kind::Plain);
                    }
                    self.owner = Some(name.to_string());
                }
                ["extern", "\"C\"", "fn", name, ..] => {
                    self.member(front(name), "::", Kind::ExportedFunction)
                }
                ["fn", name, ..] => {
                    let kind = if public {
                        Kind::PublicFunction
                    } else {
                        Kind::Function
                    };
                    self.member(front(name), "::", kind);
                }
                ["const", name, ..] => self.member(front(name), "::", Kind::Plain),
                [word, ..] if self.owner.is_some() && !front(word).is_empty() => {
                    let name = front(word);
                    if inside == "struct" && word.ends_with(':') {
                        self.member(name, ".", Kind::Plain);
                    }
                    if inside == "enum" && name.starts_with(|c: char| c.is_ascii_uppercase()) {
                        self.member(name, "::", Kind::Plain);
                    }
                }
                _ => {}
            }
        }
    }
}

#[cfg(test)]
mod tests {
    use super::*;

    fn told(file: &str, text: &str) -> Vec<(String, Kind, usize)> {
        of_text(file, text)
            .into_iter()
            .map(|found| (found.name, found.kind, found.line))
            .collect()
    }

    fn plain(name: &str, line: usize) -> (String, Kind, usize) {
        (name.to_string(), Kind::Plain, line)
    }

    #[test]
    fn laws_records_and_their_fields() {
        let text = "-- a comment : of three words\nunfoldable pub unit : ℕ → ℕ\nunit n = 8\n\n\
                    pub record Found (n : ℕ) : Type 0 where\n  pub «last_one» : n ≡ 8\n";
        let expected = [
            plain("unit", 2),
            plain("Found", 5),
            plain("last_one", 6),
            plain("Found.last_one", 6),
        ];
        assert_eq!(told("x/specs/A.antt", text), expected);
    }

    #[test]
    fn a_helper_below_a_where_is_local_and_a_member_of_a_module_is_not() {
        let text = "module _ (n : ℕ) where\n  pub law : n ≡ n\n  law = go\n    where\n      go : n ≡ n\n      go = refl\n";
        assert_eq!(
            told("x/proofs/A.antt", text),
            [plain("law", 2), ("go".to_string(), Kind::Local, 5)]
        );
    }

    #[test]
    fn functions_by_who_may_call_them() {
        let text = "fn one(a: u32) -> u32\npub(crate) fn two()\npub fn three()\n#[no_mangle]\npub extern \"C\" fn four(\n";
        let expected = [
            ("one".to_string(), Kind::Function, 1),
            ("two".to_string(), Kind::Function, 2),
            ("three".to_string(), Kind::PublicFunction, 3),
            ("four".to_string(), Kind::ExportedFunction, 4),
        ];
        assert_eq!(told("x/src/lib.rt", text), expected);
    }

    #[test]
    fn methods_of_a_type_with_parameters_have_it_as_owner() {
        let text = "impl<T: Copy, F: Fn(T) -> T> Pair<T, F> {\n    pub fn of() -> Pair<T, F>\n    {\n    }\n}\n";
        let names: Vec<String> = told("x/src/lib.rt", text)
            .into_iter()
            .map(|found| found.0)
            .collect();
        assert_eq!(names, ["of", "Pair::of"]);
    }

    #[test]
    fn methods_fields_and_cases_have_owners() {
        let text = "pub struct Quota {\n    pub grant: u32,\n}\npub enum Step {\n    At(usize),\n    Done,\n}\n\
                    impl Quota {\n    pub fn new() -> Quota\n    {\n    }\n}\npub const N: usize = 8;\n";
        let names: Vec<String> = told("x/src/lib.rt", text)
            .into_iter()
            .map(|found| found.0)
            .collect();
        let expected = [
            "Quota",
            "grant",
            "Quota.grant",
            "Step",
            "At",
            "Step::At",
            "Done",
            "Step::Done",
            "new",
            "Quota::new",
            "N",
        ];
        assert_eq!(names, expected);
    }
}
