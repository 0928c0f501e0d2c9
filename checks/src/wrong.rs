//! Every wrong program says truly what it breaks and where it is refused, and every public function has two. The table of them is written to build/WRONG-PROGRAMS.md.

use crate::declared::{self, Declaration, Kind};
use crate::edits::{self, Edit, Tried};
use crate::{files, log, table};
use std::collections::{HashMap, HashSet};

const TABLE: &str = "build/WRONG-PROGRAMS.md";

/// A place of a crate where an edit is refused: a file of the crate, and a fact there.
#[derive(Clone, Debug, PartialEq, Eq)]
pub struct Place {
    pub file: String,
    pub fact: String,
}

/// The files that rt reads in the folder of a function's proof.
const PROOFS: [&str; 3] = ["/Answers.antt", "/Invariants.antt", OLDER_PROOF];

/// The one that holds a proof which walks the code: the form of older kits.
const OLDER_PROOF: &str = "/Proof.antt";

impl Place {
    /// Whether it is a goal of a proof as older kits had them.
    pub fn is_of_older_proof(&self) -> bool {
        self.file.ends_with(OLDER_PROOF)
    }

    /// Whether it is in the crate's code.
    pub fn is_of_source(&self) -> bool {
        self.file.starts_with("src/")
    }

    /// The name of the function whose proof or source this is.
    pub fn function(&self) -> Option<&str> {
        if self.is_of_source() {
            return self.fact.rsplit("::").next();
        }
        let folder = PROOFS.iter().find_map(|end| self.file.strip_suffix(end))?;
        folder.rsplit('/').next()
    }
}

/// What the table tells of one edit, for one function or definition.
#[derive(Clone)]
pub struct Row {
    pub label: String,
    pub tried: Tried,
    pub falsity: String,
    pub refused: String,
}

/// A function of the crates, by the name that edits give it: its crate, the folder of `src/` that it is in, and its own.
pub struct Function {
    pub of: String,
    pub name: String,
    pub kind: Kind,
}

/// All wrong programs, by what they break.
#[derive(Default)]
pub struct Wrong {
    pub functions: Vec<Function>,
    pub rows: HashMap<(String, String), Vec<Row>>,
    pub definitions: HashMap<String, Vec<String>>,
    pub firsts: HashMap<String, (Tried, Place)>,
    bad: Vec<String>,
}

/// The places of a third line: `proofs/A.antt law, then proofs/B.antt other`, each with any remark behind it.
fn places(refused: &str) -> Vec<Place> {
    let place = |part: &str| {
        let mut words = part.split([' ', ',', '`']).filter(|word| !word.is_empty());
        let file = words.next().unwrap_or_default();
        let inside = file
            .strip_prefix("crates/")
            .and_then(|rest| rest.split_once('/'))
            .map_or(file, |(_, rest)| rest);
        Place {
            file: inside.to_string(),
            fact: words.next().unwrap_or_default().to_string(),
        }
    };
    refused.split(", then ").map(place).collect()
}

/// A place as the table shows it: the folder of a function's proof or a file, and the fact.
fn shown(place: &Place) -> String {
    let inside = place.file.strip_prefix("proofs/").unwrap_or(&place.file);
    format!(
        "{} `{}`",
        PROOFS
            .iter()
            .find_map(|end| inside.strip_suffix(end))
            .unwrap_or(inside),
        place.fact
    )
}

/// The name that edits give a function of a file.
fn called(found: &Declaration) -> Option<Function> {
    let mut parts = found.file.split('/').skip(1);
    let (of, part) = (parts.next()?, parts.next()?);
    let inside: Vec<&str> = parts.collect();
    let folder = if part == "src" && inside.len() > 1 {
        format!("{}::", inside[0])
    } else {
        String::new()
    };
    let name = format!("{of}::{folder}{}", found.name);
    found.kind.is_function().then(|| Function {
        of: of.to_string(),
        name,
        kind: found.kind,
    })
}

/// The names of a first line, without the crate and without `in ..` behind them.
fn broken(edit: &Edit) -> Vec<String> {
    let own = format!("{}::", edit.of);
    let bare = |name: &str| {
        let name = name.strip_prefix(&own).unwrap_or(name);
        name.split_once(" in ")
            .map_or(name, |(name, _)| name)
            .to_string()
    };
    edit.wrong.split(", ").map(bare).collect()
}

impl Wrong {
    fn take(&mut self, edit: &Edit, declared: &HashSet<(String, String)>) {
        if edit.wrong.is_empty() || edit.falsity.is_empty() || edit.refused.is_empty() {
            let lines = "\"# wrong: ..\", \"# false: ..\" and \"# refused at: ..\"";
            return self.bad.push(format!(
                "{}: it does not begin with the three lines {lines}.",
                edit.path
            ));
        }
        if format!("{}{}{}", edit.wrong, edit.falsity, edit.refused).contains('|') {
            self.bad.push(format!(
                "{}: a | in its first three lines would break the table.",
                edit.path
            ));
        }
        let places = places(&edit.refused);
        for place in &places {
            if !self.is_there(edit, place, declared) {
                let told = format!("refused at \"{} {}\"", place.file, place.fact);
                self.bad.push(format!(
                    "{}: {told}, but {} has no such fact in such a file.",
                    edit.path, edit.of
                ));
            }
        }
        let label = format!("{}/{}", edit.of, edit.label);
        if self
            .firsts
            .insert(label, (edit.tried, places[0].clone()))
            .is_some()
        {
            self.bad.push(format!(
                "{}: another edit of {} has the same name.",
                edit.path, edit.of
            ));
        }
        let refused = places.iter().map(shown).collect::<Vec<_>>().join(", then ");
        let row = Row {
            label: edit.label.clone(),
            tried: edit.tried,
            falsity: edit.falsity.clone(),
            refused,
        };
        self.put_rows(edit, &row, declared);
    }

    /// Whether the crate has a fact in a file; of a goal of an older kit's proof, whether it has the function.
    fn is_there(&self, edit: &Edit, place: &Place, declared: &HashSet<(String, String)>) -> bool {
        let file = format!("crates/{}/{}", edit.of, place.file);
        let named = |function: &&Function| {
            function.of == edit.of && function.name.rsplit("::").next() == place.function()
        };
        declared.contains(&(file, place.fact.clone()))
            || place.is_of_older_proof() && self.functions.iter().any(|f| named(&f))
    }

    fn put_rows(&mut self, edit: &Edit, row: &Row, declared: &HashSet<(String, String)>) {
        let file = edit.replacements.first().map_or("", |first| &first.file);
        let of_specs = file.starts_with("specs/");
        let mut named = HashSet::new();
        for name in broken(edit) {
            if !named.insert(name.clone()) {
                self.bad
                    .push(format!("{}: it names \"{name}\" twice.", edit.path));
                continue;
            }
            let name = if of_specs {
                name
            } else {
                format!("{}::{name}", edit.of)
            };
            let there = if of_specs {
                declared.contains(&(format!("crates/{}/{file}", edit.of), name.clone()))
            } else {
                self.functions.iter().any(|function| function.name == name)
            };
            if !there {
                let what = if of_specs {
                    format!("definition in {file}")
                } else {
                    "function".to_string()
                };
                self.bad.push(format!(
                    "{}: wrong \"{name}\", but {} has no such {what}.",
                    edit.path, edit.of
                ));
                continue;
            }
            let rows = self
                .rows
                .entry((edit.of.clone(), name.clone()))
                .or_default();
            if of_specs && rows.is_empty() {
                self.definitions
                    .entry(edit.of.clone())
                    .or_default()
                    .push(name.clone());
            }
            rows.push(row.clone());
        }
    }

    /// How many wrong programs who tries has.
    pub fn tried(&self, tried: Tried) -> usize {
        self.firsts
            .values()
            .filter(|first| first.0 == tried)
            .count()
    }

    /// The functions that other crates or programs call.
    pub fn public(&self) -> impl Iterator<Item = &Function> {
        self.functions
            .iter()
            .filter(|function| function.kind != Kind::Function)
    }

    /// What public functions lack.
    fn lacks(&self) -> Vec<String> {
        let mut bad = Vec::new();
        for function in self.public() {
            let count = self
                .rows
                .get(&(function.of.clone(), function.name.clone()))
                .map_or(0, Vec::len);
            if count < 2 {
                let text = "a public function has two wrong programs or more, this one has";
                bad.push(format!("{}: {text} {count}.", function.name));
            }
        }
        bad
    }
}

/// The functions of the crates but for those of static libraries, which hand on a library's functions with its clauses: the
/// wrong programs are the library's.
fn functions(declared: &[Declaration], static_crates: &[String]) -> Vec<Function> {
    let mut seen = HashSet::new();
    declared
        .iter()
        .filter_map(called)
        .filter(|function| !static_crates.contains(&function.of))
        .filter(|function| seen.insert(function.name.clone()))
        .collect()
}

/// Writes into the third line of each edit that a log of rt has as refused where that was, where it says otherwise. What
/// stands behind the first place stays if it is still there.
pub fn write_places(name: &str) -> Result<String, Vec<String>> {
    let all = declared::of_crates()?;
    let declared: HashSet<(String, String)> = all
        .iter()
        .map(|found| (found.file.clone(), found.name.clone()))
        .collect();
    let found: HashMap<String, Place> = log::found(&files::text(name)?, &all).into_iter().collect();
    let mut count = 0;
    for path in edits::paths()? {
        let text = files::text(&path)?;
        let edit = edits::read(&path, &text);
        let said = places(&edit.refused);
        let Some(place) = found.get(&format!("{}/{}", edit.of, edit.label)) else {
            continue;
        };
        if log::agrees(&said[0], place) {
            continue;
        }
        let stays = said[1..].iter().all(|place| {
            declared.contains(&(
                format!("crates/{}/{}", edit.of, place.file),
                place.fact.clone(),
            ))
        });
        let rest = edit.refused.split_once(", then ").filter(|_| stays);
        let rest = rest.map_or(String::new(), |(_, rest)| format!(", then {rest}"));
        let old = format!("# refused at: {}\n", edit.refused);
        let new = format!("# refused at: {} {}{rest}\n", place.file, place.fact);
        std::fs::write(&path, text.replacen(&old, &new, 1))
            .map_err(|error| vec![format!("{path}: {error}")])?;
        count += 1;
    }
    Ok(format!("{count} third lines written"))
}

/// Checks the wrong programs and writes their table; or holds a log of rt to them.
pub fn check(log_of: Option<(&str, Tried)>) -> Result<String, Vec<String>> {
    let all = declared::of_crates()?;
    let declared = all
        .iter()
        .map(|found| (found.file.clone(), found.name.clone()))
        .collect();
    let mut wrong = Wrong {
        functions: functions(&all, &files::static_crates()?),
        ..Wrong::default()
    };
    let mut texts = HashMap::new();
    let mut text_of = |path: &str| -> String {
        texts
            .entry(path.to_string())
            .or_insert_with(|| files::text(path).unwrap_or_default())
            .clone()
    };
    for path in edits::paths()? {
        let edit = edits::read(&path, &files::text(&path)?);
        wrong.bad.extend(edits::apply(&edit, &mut text_of));
        wrong.take(&edit, &declared);
    }
    let mut bad = std::mem::take(&mut wrong.bad);
    bad.extend(wrong.lacks());
    let told = match log_of {
        Some((log, tried)) => {
            let (told, lines) = log::compare(log, &files::text(log)?, tried, &wrong, &all);
            bad.extend(lines);
            told
        }
        None => format!("{} wrong programs, listed in {TABLE}", wrong.firsts.len()),
    };
    if !bad.is_empty() {
        return Err(bad);
    }
    if log_of.is_none() {
        table::write(TABLE, &table::text(&wrong, &files::crates()?))?;
    }
    Ok(told)
}

#[cfg(test)]
mod tests {
    use super::*;

    fn declared(names: &[(&str, &str)]) -> HashSet<(String, String)> {
        names
            .iter()
            .map(|(file, name)| (file.to_string(), name.to_string()))
            .collect()
    }

    fn some() -> Wrong {
        let function = Function {
            of: "words".into(),
            name: "words::charge".into(),
            kind: Kind::ExportedFunction,
        };
        Wrong {
            functions: vec![function],
            ..Wrong::default()
        }
    }

    fn edit(path: &str, wrong: &str, refused: &str) -> Edit {
        let text = format!("# wrong: {wrong}\n# false: 1: 2\n# refused at: {refused} returns\nfile: src/a.rt\nold: a\nnew: b\n");
        edits::read(path, &text)
    }

    const ANSWERS: &str = "proofs/charge/Answers.antt";
    const FACT: (&str, &str) = ("crates/words/proofs/charge/Answers.antt", "returns");

    #[test]
    fn the_places_of_a_third_line() {
        let found = places(
            "proofs/a/Proof.antt returns, which is no charge, then crates/x/proofs/B.antt law",
        );
        let told: Vec<(&str, &str)> = found
            .iter()
            .map(|place| (place.file.as_str(), place.fact.as_str()))
            .collect();
        assert_eq!(
            told,
            [("proofs/a/Proof.antt", "returns"), ("proofs/B.antt", "law")]
        );
        assert_eq!(shown(&found[0]), "a `returns`");
    }

    #[test]
    fn an_edit_that_is_right() {
        let mut wrong = some();
        wrong.take(
            &edit("crates/words/must-fail/a.edit", "words::charge", ANSWERS),
            &declared(&[FACT]),
        );
        assert_eq!(wrong.bad, [""; 0]);
        assert_eq!(
            wrong.lacks(),
            ["words::charge: a public function has two wrong programs or more, this one has 1."]
        );
        wrong.take(
            &edit("wrong/words/b.edit", "words::charge", ANSWERS),
            &declared(&[FACT]),
        );
        assert_eq!(wrong.lacks(), [""; 0]);
        assert_eq!(
            (wrong.tried(Tried::Gate), wrong.tried(Tried::Apart)),
            (1, 1)
        );
    }

    #[test]
    fn an_edit_that_names_what_is_not_there() {
        let mut wrong = some();
        wrong.take(
            &edit(
                "wrong/words/b.edit",
                "words::refund, charge, charge",
                ANSWERS,
            ),
            &declared(&[]),
        );
        assert_eq!(wrong.bad.len(), 3);
        assert!(wrong.bad[0].contains("has no such fact"));
        assert!(wrong.bad[1].contains("has no such function"));
        assert!(wrong.bad[2].contains("twice"));
    }

    #[test]
    fn a_goal_of_an_older_proof_is_one_of_a_function_that_is_there() {
        let mut wrong = some();
        for (folder, bad) in [("proofs/by_value/charge", 0), ("proofs/gone", 1)] {
            let path = format!("wrong/words/{bad}.edit");
            let refused = format!("{folder}/Proof.antt");
            wrong.take(&edit(&path, "words::charge", &refused), &declared(&[]));
            assert_eq!(wrong.bad.len(), bad);
        }
    }
}
