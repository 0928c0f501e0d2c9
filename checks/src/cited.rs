//! The names and the rules that documents cite.
//!
//! In docs/RULES.md and docs/PROMISES*.md a name is cited with its file: `` `name` (crate/specs/File.antt) ``, or
//! `` `name`, `name` (..) `` for several of one file, with the path from crates/ or from the project's folder. The file
//! has to declare the name, and not as a helper below a `where`; of WRONG-PROGRAMS.md a name is a wrong program's. In
//! docs/PROMISES*.md a name in backquotes without a file has to be cited with one elsewhere in it, unless it is a
//! crate's. Each rule has to stand in a column `rule` of docs/PROMISES*.md, and each rule that is cited anywhere has to
//! be one. Each link from a document has to lead to a file.

use crate::declared::{self, Kind};
use crate::documents::{file_at, pieces, Piece};
use crate::rules::{self, Rule};
use crate::{edits, files, links};
use std::collections::{BTreeSet, HashSet};

/// The file that stands for the table of wrong programs.
const WRONG_PROGRAMS: &str = "WRONG-PROGRAMS.md";

/// What may cite a rule.
const PLACES: [&str; 13] = [
    "README.md",
    "CHANGELOG.md",
    "CONTRIBUTING.md",
    "docs",
    "crates",
    "include",
    "wrong",
    "reference",
    "tests",
    "bench",
    "bindings",
    "examples",
    "checks",
];

/// What documents may name.
pub struct Known {
    /// File and name.
    names: HashSet<(String, String)>,
    files: HashSet<String>,
    crates: HashSet<String>,
    rules: BTreeSet<Rule>,
}

/// A name in backquotes: where it stands, and the file it is said to be in.
#[derive(Debug, PartialEq, Eq)]
struct Name {
    name: String,
    line: usize,
    file: Option<String>,
}

/// The names of a piece. Those that commas or `and` join have the file of the last.
fn names_of(piece: &Piece) -> Vec<Name> {
    let mut found: Vec<Name> = Vec::new();
    let mut waiting = 0;
    let mut rest = piece.text.as_str();
    let mut line = piece.line;
    while let Some(open) = rest.find('`') {
        let Some(close) = rest[open + 1..].find('`').map(|at| open + 1 + at) else {
            break;
        };
        line += rest[..open].matches('\n').count();
        let name = rest[open + 1..close].to_string();
        found.push(Name {
            line,
            name,
            file: None,
        });
        line += rest[open..close].matches('\n').count();
        rest = &rest[close + 1..];
        let goes_on = [", ", ",\n", " and ", " and\n", ", and ", ", and\n"];
        if goes_on.iter().any(|joint| {
            rest.strip_prefix(joint)
                .is_some_and(|next| next.starts_with('`'))
        }) {
            continue;
        }
        let behind = rest
            .strip_prefix([' ', '\n'])
            .and_then(file_at)
            .map(str::to_string);
        let file = behind.or_else(|| piece.file.clone());
        for name in &mut found[waiting..] {
            name.file.clone_from(&file);
        }
        waiting = found.len();
    }
    found
}

/// One document, and what was found of it.
struct Reading<'a> {
    known: &'a Known,
    document: &'a str,
    cited: HashSet<String>,
    bare: Vec<Name>,
    covered: BTreeSet<Rule>,
    bad: Vec<String>,
    count: usize,
}

impl<'a> Reading<'a> {
    fn new(known: &'a Known, document: &'a str) -> Reading<'a> {
        let (cited, bare, covered) = (HashSet::new(), Vec::new(), BTreeSet::new());
        Reading {
            known,
            document,
            cited,
            bare,
            covered,
            bad: Vec::new(),
            count: 0,
        }
    }

    fn complain(&mut self, line: usize, text: &str) {
        self.bad.push(format!("{}:{line}: {text}", self.document));
    }

    fn is_promises(&self) -> bool {
        self.document.contains("PROMISES")
    }

    fn read(&mut self, text: &str) {
        for piece in pieces(text) {
            if piece.rules && self.is_promises() && !matches!(piece.text.trim(), "" | "rule") {
                self.cover(&piece);
            }
            for name in names_of(&piece) {
                self.take(name);
            }
        }
        for name in std::mem::take(&mut self.bare) {
            if !self.cited.contains(&name.name) {
                self.complain(
                    name.line,
                    &format!("`{}` is cited with its file nowhere.", name.name),
                );
            }
        }
    }

    fn take(&mut self, name: Name) {
        let Some(file) = name.file.clone() else {
            let plain =
                !name.name.contains([' ', '/', '*']) && !self.known.crates.contains(&name.name);
            if self.is_promises() && plain {
                self.bare.push(name);
            }
            return;
        };
        self.count += 1;
        let longer = format!("crates/{file}");
        let at_home = self.known.files.contains(&file) || !self.known.files.contains(&longer);
        let file = if at_home { file } else { longer };
        if !self.known.files.contains(&file) {
            let text = format!(
                "`{}` is said to be in {file}, which is no file that declares names.",
                name.name
            );
            self.complain(name.line, &text);
        } else if !self
            .known
            .names
            .contains(&(file.clone(), name.name.clone()))
        {
            self.complain(
                name.line,
                &format!("`{}` is not declared in {file}.", name.name),
            );
        }
        self.cited.insert(name.name);
    }

    fn cover(&mut self, piece: &Piece) {
        match rules::listed(&piece.text) {
            Err(part) => self.complain(
                piece.line,
                &format!("\"{part}\" is no rule and no run of rules."),
            ),
            Ok(found) => {
                for rule in found {
                    if !self.known.rules.contains(&rule) {
                        self.complain(piece.line, &format!("rule {rule} is not in docs/RULES.md."));
                    }
                    self.covered.insert(rule);
                }
            }
        }
    }
}

fn known() -> Result<Known, Vec<String>> {
    let mut names = HashSet::new();
    let mut with_names = HashSet::new();
    for found in declared::of_crates()? {
        with_names.insert(found.file.clone());
        if found.kind != Kind::Local {
            names.insert((found.file, found.name));
        }
    }
    with_names.insert(WRONG_PROGRAMS.to_string());
    for edit in edits::paths()? {
        let label = edit
            .rsplit('/')
            .next()
            .unwrap_or_default()
            .trim_end_matches(".edit")
            .to_string();
        names.insert((WRONG_PROGRAMS.to_string(), label));
    }
    let rules = rules::of_book(&files::text("docs/RULES.md")?)
        .into_iter()
        .collect();
    Ok(Known {
        names,
        files: with_names,
        crates: files::crates()?.into_iter().collect(),
        rules,
    })
}

/// The rules that any text cites and that are none, and the links that lead nowhere.
fn elsewhere(known: &Known) -> Result<Vec<String>, Vec<String>> {
    let mut bad = Vec::new();
    for file in files::below(
        &PLACES,
        &[".md", ".rt", ".antt", ".edit", ".rs", ".h", ".c"],
    )? {
        let text = files::text(&file)?;
        for (at, line) in text.lines().enumerate() {
            for rule in rules::unknown(line, &known.rules) {
                bad.push(format!(
                    "{file}:{}: rule {rule} is not in docs/RULES.md.",
                    at + 1
                ));
            }
        }
        if file.ends_with(".md") {
            bad.extend(links::broken(&file, &text));
        }
    }
    Ok(bad)
}

/// Checks all documents.
pub fn check() -> Result<String, Vec<String>> {
    let known = known()?;
    let mut bad = elsewhere(&known)?;
    let (mut count, mut covered) = (0, BTreeSet::new());
    let documents = files::below(&["docs"], &[".md"])?;
    for document in documents
        .iter()
        .filter(|name| name.starts_with("docs/RULES") || name.starts_with("docs/PROMISES"))
    {
        let mut reading = Reading::new(&known, document);
        reading.read(&files::text(document)?);
        count += reading.count;
        covered.extend(reading.covered);
        bad.extend(reading.bad);
    }
    for rule in known.rules.difference(&covered) {
        bad.push(format!(
            "docs/PROMISES*.md: rule {rule} is in no column \"rule\"."
        ));
    }
    if !bad.is_empty() {
        return Err(bad);
    }
    Ok(format!(
        "{count} names checked in docs/RULES.md and docs/PROMISES*.md, {} rules",
        known.rules.len()
    ))
}

#[cfg(test)]
mod tests {
    use super::*;

    fn piece(text: &str, file: Option<&str>) -> Piece {
        Piece {
            text: text.to_string(),
            line: 3,
            file: file.map(str::to_string),
            rules: false,
        }
    }

    fn told(piece: &Piece) -> Vec<(String, Option<String>)> {
        names_of(piece)
            .into_iter()
            .map(|name| (name.name, name.file))
            .collect()
    }

    fn with(name: &str, file: Option<&str>) -> (String, Option<String>) {
        (name.to_string(), file.map(str::to_string))
    }

    #[test]
    fn joined_names_have_one_file() {
        let found = told(&piece("`a`, `b` and\n`c` (x/Y.antt), then `d`", None));
        let file = Some("x/Y.antt");
        assert_eq!(
            found,
            [
                with("a", file),
                with("b", file),
                with("c", file),
                with("d", None)
            ]
        );
    }

    #[test]
    fn a_column_gives_its_file() {
        assert_eq!(
            told(&piece("`a` (z/Z.rt), `b`", Some("x/Y.antt"))),
            [with("a", Some("z/Z.rt")), with("b", Some("x/Y.antt"))]
        );
    }

    fn some_known() -> Known {
        let names = [("crates/x/Y.antt".to_string(), "law".to_string())]
            .into_iter()
            .collect();
        let files = ["crates/x/Y.antt".to_string()].into_iter().collect();
        let rules = [Rule(5, 1), Rule(5, 2)].into_iter().collect();
        Known {
            names,
            files,
            crates: ["words".to_string()].into_iter().collect(),
            rules,
        }
    }

    fn complaints(text: &str) -> Vec<String> {
        let known = some_known();
        let mut reading = Reading::new(&known, "docs/PROMISES.md");
        reading.read(text);
        reading.bad
    }

    #[test]
    fn what_is_right_is_passed() {
        assert_eq!(
            complaints("`law` (x/Y.antt) of `words`.\n\nAgain `law`.\n"),
            [""; 0]
        );
    }

    #[test]
    fn what_is_not_there_is_told() {
        assert_eq!(
            complaints("`lore` (x/Y.antt)\n"),
            ["docs/PROMISES.md:1: `lore` is not declared in crates/x/Y.antt."]
        );
        assert_eq!(
            complaints("one\n`law` (x/Z.antt)\n"),
            ["docs/PROMISES.md:2: `law` is said to be in x/Z.antt, which is no file that declares names."]
        );
        assert_eq!(
            complaints("`law`\n"),
            ["docs/PROMISES.md:1: `law` is cited with its file nowhere."]
        );
        assert_eq!(
            complaints("| rule |\n|---|\n| 5.1 to 5.3 |\n"),
            ["docs/PROMISES.md:3: rule 5.3 is not in docs/RULES.md."]
        );
    }
}
