//! Files of the project.

use std::fs;
use std::path::Path;

/// The text of a file; what is wrong names the file.
pub fn text(path: &str) -> Result<String, Vec<String>> {
    fs::read_to_string(path).map_err(|error| vec![format!("{path}: {error}")])
}

/// The files below some files and folders whose names end so, sorted; `build`, `target` and `out` folders are left
/// out.
pub fn below(starts: &[&str], ends: &[&str]) -> Result<Vec<String>, Vec<String>> {
    let mut found = Vec::new();
    for start in starts {
        gather(Path::new(start), ends, &mut found)
            .map_err(|error| vec![format!("{start}: {error}")])?;
    }
    found.sort();
    Ok(found)
}

fn gather(path: &Path, ends: &[&str], found: &mut Vec<String>) -> std::io::Result<()> {
    if path.is_dir() {
        for entry in fs::read_dir(path)? {
            let entry = entry?.path();
            let name = entry.file_name().unwrap_or_default();
            if name != "build" && name != "target" && name != "out" {
                gather(&entry, ends, found)?;
            }
        }
    } else {
        let name = path.to_string_lossy().into_owned();
        if ends.iter().any(|end| name.ends_with(end)) {
            found.push(name);
        }
    }
    Ok(())
}

/// The names of the crates that crates.txt lists, in its order.
pub fn crates() -> Result<Vec<String>, Vec<String>> {
    let lines = text("crates.txt")?;
    Ok(heads(&lines).map(|head| head[0].to_string()).collect())
}

/// The names of the crates that crates.txt lists as static libraries.
pub fn static_crates() -> Result<Vec<String>, Vec<String>> {
    let lines = text("crates.txt")?;
    let all = heads(&lines).filter(|head| head[1..].contains(&"staticlib"));
    Ok(all.map(|head| head[0].to_string()).collect())
}

/// What stands in front of the `:` of each line, word for word: the crate's name first.
fn heads(lines: &str) -> impl Iterator<Item = Vec<&str>> {
    let code = lines
        .lines()
        .map(|line| line.split('#').next().unwrap_or_default());
    code.filter_map(|line| line.split_once(':'))
        .map(|(head, _)| head.split_whitespace().collect::<Vec<_>>())
        .filter(|head| !head.is_empty())
}

#[cfg(test)]
mod tests {
    use super::*;

    #[test]
    fn comments_of_the_list_of_crates_are_passed_over() {
        let lines = "# leaves\nlists:\nwords_c staticlib: lists accounts # in place\n\n";
        let found: Vec<Vec<&str>> = heads(lines).collect();
        assert_eq!(found, [vec!["lists"], vec!["words_c", "staticlib"]]);
    }
}
