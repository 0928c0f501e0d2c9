//! Wrong programs: files that say what to replace in a crate. The first three lines of each say what it breaks, where
//! that is false, and where it is refused.

use crate::files;
use std::collections::HashMap;

/// Who tries an edit: the gate those of `crates/*/must-fail`, `make wrong` those of `wrong/*`.
#[derive(Clone, Copy, Debug, PartialEq, Eq)]
pub enum Tried {
    Gate,
    Apart,
}

impl Tried {
    pub fn by(self) -> &'static str {
        match self {
            Tried::Gate => "gate",
            Tried::Apart => "`make wrong`",
        }
    }
}

/// A text that is replaced in a file of the crate.
#[derive(Debug, PartialEq, Eq)]
pub struct Replacement {
    pub file: String,
    pub old: String,
    pub new: String,
}

/// An edit as it is written.
#[derive(Debug, PartialEq, Eq)]
pub struct Edit {
    pub path: String,
    pub of: String,
    pub label: String,
    pub tried: Tried,
    pub wrong: String,
    pub falsity: String,
    pub refused: String,
    pub replacements: Vec<Replacement>,
}

/// The paths of all edits, sorted.
pub fn paths() -> Result<Vec<String>, Vec<String>> {
    files::below(&["crates", "wrong"], &[".edit"])
}

/// The edit of a text; its first three lines are empty where they have another form.
pub fn read(path: &str, text: &str) -> Edit {
    let parts: Vec<&str> = path.split('/').collect();
    let folder = parts[parts.len() - 2];
    let (of, tried) = if folder == "must-fail" {
        (parts[parts.len() - 3], Tried::Gate)
    } else {
        (folder, Tried::Apart)
    };
    let mut lines = text.lines();
    let mut head = |begins: &str| {
        lines
            .next()
            .and_then(|line| line.strip_prefix(begins))
            .unwrap_or_default()
            .to_string()
    };
    let (wrong, falsity, refused) = (head("# wrong: "), head("# false: "), head("# refused at: "));
    Edit {
        path: path.to_string(),
        of: of.to_string(),
        label: parts[parts.len() - 1].trim_end_matches(".edit").to_string(),
        tried,
        wrong,
        falsity,
        refused,
        replacements: replacements(text),
    }
}

fn replacements(text: &str) -> Vec<Replacement> {
    let (mut file, mut old) = (String::new(), String::new());
    let mut found = Vec::new();
    for line in text.lines() {
        if let Some(rest) = line.strip_prefix("file: ") {
            file = rest.to_string();
        } else if let Some(rest) = line.strip_prefix("old: ") {
            old = rest.to_string();
        } else if let Some(rest) = line.strip_prefix("new:") {
            let new = rest.strip_prefix(' ').unwrap_or(rest).to_string();
            found.push(Replacement {
                file: file.clone(),
                old: std::mem::take(&mut old),
                new,
            });
        }
    }
    found
}

/// Makes the replacements in the crate's texts; says which old text is not there, or more than once.
pub fn apply(edit: &Edit, text_of: &mut dyn FnMut(&str) -> String) -> Vec<String> {
    let mut texts: HashMap<String, String> = HashMap::new();
    let mut bad = Vec::new();
    for replacement in &edit.replacements {
        let path = format!("crates/{}/{}", edit.of, replacement.file);
        let text = texts.entry(path.clone()).or_insert_with(|| text_of(&path));
        let times = if replacement.old.is_empty() {
            0
        } else {
            text.matches(&replacement.old).count()
        };
        if times == 1 {
            *text = text.replacen(&replacement.old, &replacement.new, 1);
        } else {
            let how = if times == 0 { "not" } else { "more than once" };
            bad.push(format!("{}: an old text is {how} in {path}.", edit.path));
        }
    }
    if edit.replacements.is_empty() {
        bad.push(format!("{}: it replaces nothing.", edit.path));
    }
    bad
}

#[cfg(test)]
mod tests {
    use super::*;

    const TEXT: &str = "# wrong: words::charge\n# false: 1: 2, the definition 1\n# refused at: proofs/A.antt law\n\
                        file: src/lib.rt\nold:     a - b\nnew:     a + b\nold: gone\nnew:\n";

    #[test]
    fn an_edit_is_read() {
        let edit = read("crates/words/must-fail/adds.edit", TEXT);
        assert_eq!(
            (edit.of.as_str(), edit.label.as_str(), edit.tried),
            ("words", "adds", Tried::Gate)
        );
        assert_eq!(edit.refused, "proofs/A.antt law");
        assert_eq!(edit.replacements[0].old, "    a - b");
        assert_eq!(edit.replacements[1].new, "");
        assert_eq!(read("wrong/words/adds.edit", "x\n").tried, Tried::Apart);
    }

    #[test]
    fn an_old_text_is_there_once() {
        let edit = read("wrong/words/adds.edit", TEXT);
        assert_eq!(
            apply(&edit, &mut |_| "x\n    a - b\ngone\n".to_string()),
            [""; 0]
        );
        let bad = apply(&edit, &mut |_| "    a - b\n    a - b\n".to_string());
        assert!(bad[0].ends_with("more than once in crates/words/src/lib.rt."));
        assert!(bad[1].ends_with("not in crates/words/src/lib.rt."));
    }
}
