//! What each field of each struct of the headers means: `c/meanings.c` asks for it. Here it is checked that
//! it asks for every field, and that it notices an exchange of any two fields of one type.

#[allow(dead_code)]
mod support;

use std::collections::BTreeSet;
use std::fs;
use std::path::{Path, PathBuf};
use std::process::Command;

use support::{compile, compile_over, repository, run};

const PROGRAM: &str = "bindings/rust/tests/c/meanings.c";

/// The headers assert where each field lies; an exchange has to be noticed without that.
const ASSERT_NOTHING: &str = "-DLOKHAZIM_ASSERT(fact,text)=_Static_assert(1,\"\")";

/// A field of a struct: the struct's name, the field's, its type, and its line in the header.
#[derive(Clone, Debug)]
struct Field {
    owner: String,
    name: String,
    kind: String,
    line: usize,
}

fn header_paths() -> Vec<PathBuf> {
    let mut paths: Vec<PathBuf> = fs::read_dir(repository("include"))
        .expect("the headers are there")
        .map(|entry| entry.expect("a header has a name").path())
        .collect();
    paths.sort();
    paths
}

fn read(path: &Path) -> String {
    fs::read_to_string(path).unwrap_or_else(|error| panic!("{}: {error}", path.display()))
}

/// The fields of all structs that a header declares. An array's length counts as part of its type.
fn fields_of(header: &str) -> Vec<Field> {
    let mut owner = None;
    let mut fields = Vec::new();
    for (line, text) in header.lines().enumerate() {
        if let Some(rest) = text.strip_prefix("struct ") {
            owner = rest.strip_suffix(" {").map(str::to_owned);
        } else if text.starts_with('}') {
            owner = None;
        }
        let Some(owner) = &owner else { continue };
        let Some(declared) = text.trim().strip_suffix(';') else {
            continue;
        };
        let (kind, name) = declared.rsplit_once(' ').expect("a type and a name");
        let (name, length) = name.split_at(name.find('[').unwrap_or(name.len()));
        fields.push(Field {
            owner: owner.clone(),
            name: name.trim_start_matches('*').to_owned(),
            kind: format!("{kind}{length}"),
            line,
        });
    }
    fields
}

/// The fields that the program asks for: `IS(struct, object, field, number)`.
fn asked() -> BTreeSet<(String, String)> {
    read(&repository(PROGRAM))
        .lines()
        .filter_map(|line| line.trim().strip_prefix("IS("))
        .map(|words| {
            let mut parts = words.split(", ");
            let owner = parts.next().expect("a struct");
            let field = parts.nth(1).expect("a field");
            let name = field.split(['.', '[']).next().expect("a name");
            (owner.to_owned(), name.to_owned())
        })
        .collect()
}

/// The lines of a header with two of them exchanged.
fn exchanged(header: &str, one: usize, two: usize) -> String {
    let mut lines: Vec<&str> = header.lines().collect();
    lines.swap(one, two);
    lines.join("\n") + "\n"
}

/// Whether the program, compiled over the headers of a folder, ends well.
fn ends_well(headers: &Path) -> bool {
    let program = headers.join("meanings");
    compile_over(PROGRAM, &["-O0", ASSERT_NOTHING], headers, &program);
    let done = Command::new(&program)
        .output()
        .expect("a compiled program can be started");
    done.status.success()
}

#[test]
fn every_field_means_what_its_name_says() {
    for level in ["-O0", "-O2"] {
        run(&compile(PROGRAM, level), &[], b"");
    }
}

#[test]
fn every_field_is_asked_for() {
    let asked = asked();
    for path in header_paths() {
        for field in fields_of(&read(&path)) {
            assert!(
                asked.contains(&(field.owner.clone(), field.name.clone())),
                "{PROGRAM} does not ask for {field:?}"
            );
        }
    }
}

#[test]
fn an_exchange_of_two_fields_is_noticed() {
    let folder = Path::new(env!("CARGO_TARGET_TMPDIR")).join("exchanged");
    fs::create_dir_all(&folder).expect("a folder can be made");
    let mut tried = 0;
    for path in header_paths() {
        fs::copy(&path, folder.join(path.file_name().expect("a name")))
            .expect("a header can be copied");
    }
    assert!(ends_well(&folder));
    for path in header_paths() {
        let header = read(&path);
        let place = folder.join(path.file_name().expect("a name"));
        let fields = fields_of(&header);
        for (at, one) in fields.iter().enumerate() {
            for two in &fields[at + 1..] {
                if one.owner == two.owner && one.kind == two.kind {
                    fs::write(&place, exchanged(&header, one.line, two.line))
                        .expect("a header can be written");
                    assert!(!ends_well(&folder), "{one:?} and {two:?} can be exchanged");
                    tried += 1;
                }
            }
        }
        fs::write(&place, header).expect("a header can be written");
    }
    assert!(tried >= 50, "only {tried} exchanges were tried");
}
