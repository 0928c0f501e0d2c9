//! Audit reports by the command: lines, the linker's JSON, and what is said where one is wrong.

#[allow(dead_code)]
mod support;

use std::fs;
use std::path::{Path, PathBuf};
use std::process::Output;

use support::{expect, folder, lokhazim};

/// The line of a grant, without its line feed.
fn line(grant: u32) -> String {
    format!("{grant:08x} 00000000 00000000 00000000 00000000 00000000")
}

/// What is printed for grants: missing ones are 0.
fn printed(grants: &[u32]) -> String {
    let all = grants.iter().copied().chain([0; 32]).take(32);
    let words: Vec<String> = all.map(|grant| grant.to_string()).collect();
    format!("{}\n", words.join(" "))
}

/// Imports a text from a file.
fn import(folder: &Path, text: &[u8]) -> Output {
    fs::write(folder.join("report"), text).expect("the file can be written");
    lokhazim(folder, &["report", "import", "report"])
}

/// An entry of the linker's report as it shows an allocator's capability.
fn entry(contents: &str, key: &str) -> String {
    format!(
        r#"{{
          "contents": {contents},
          "kind": "SealedObject",
          "sealing_type": {{
            "compartment": "allocator",
            "key": "{key}",
            "provided_by": "build/board/release/board.allocator.compartment",
            "symbol": "__export.sealing_type.allocator.{key}"
          }}
        }}"#
    )
}

/// A report with entries among the imports of two compartments, and much that is none.
fn report(first: &[String], second: &[String]) -> String {
    let other = entry("\"00000007\"", "OtherKey");
    let list = |entries: &[String]| [entries, std::slice::from_ref(&other)].concat().join(",\n");
    format!(
        r#"{{
  "compartments": {{
    "logger": {{
      "code": {{ "inputs": [], "length": 1.5e3, "exported": true }},
      "imports": [{}]
    }},
    "radio": {{ "imports": [{}], "note": "caf\u00e9 \"MallocKey\"" }}
  }},
  "final_hash": null
}}
"#,
        list(first),
        list(second)
    )
}

/// The entry of a grant.
fn granted(grant: u32) -> String {
    entry(&format!("\"{}\"", line(grant)), "MallocKey")
}

#[test]
fn lines_are_imported() {
    let folder = folder("report-lines");
    let text = |grants: &[u32]| -> String { grants.iter().map(|g| line(*g) + "\n").collect() };
    expect(&import(&folder, b""), 0, &printed(&[]), "");
    let grants = [4096, u32::MAX, 0, 10];
    expect(
        &import(&folder, text(&grants).as_bytes()),
        0,
        &printed(&grants),
        "",
    );
    let full: Vec<u32> = (1..=32).collect();
    expect(
        &import(&folder, text(&full).as_bytes()),
        0,
        &printed(&full),
        "",
    );
    let missing = ["report", "import", "nothere"];
    expect(
        &lokhazim(&folder, &missing),
        2,
        "",
        "nothere can't be read: ",
    );
}

#[test]
fn a_bad_line_is_named_with_its_refusal() {
    let folder = folder("report-bad");
    let good = line(1) + "\n";
    let (upper, word) = (
        good.replacen('1', "A", 1),
        good.replace(" 00000000\n", " 00000001\n"),
    );
    for (text, said) in [
        (good.trim_end().to_owned(), "report: line 1: refusal 31: "),
        (format!("{good}{upper}"), "report: line 2: refusal 31: "),
        (format!("{good}\r\n"), "report: line 2: refusal 31: "),
        (
            format!("{good}{word}{upper}"),
            "report: line 2: refusal 32: ",
        ),
        (
            format!("{}\n", good.repeat(32)),
            "report: line 33: refusal 33: ",
        ),
        ("(\n".to_owned(), "report: line 1: refusal 31: "),
    ] {
        expect(&import(&folder, text.as_bytes()), 1, "", said);
    }
}

#[test]
fn the_linkers_json_is_imported() {
    let folder = folder("report-json");
    let text = report(&[granted(4096), granted(7)], &[granted(u32::MAX)]);
    let run = import(&folder, text.as_bytes());
    expect(&run, 0, &printed(&[4096, 7, u32::MAX]), "");
    let run = import(&folder, format!("\n\t {}", granted(9)).as_bytes());
    expect(&run, 0, &printed(&[9]), "");
    let run = import(
        &folder,
        format!("[{},{}]", granted(1), granted(2)).as_bytes(),
    );
    expect(&run, 0, &printed(&[1, 2]), "");
    let many: Vec<String> = (1..=32).map(granted).collect();
    let run = import(&folder, report(&many[..20], &many[20..]).as_bytes());
    expect(&run, 0, &printed(&(1..=32).collect::<Vec<u32>>()), "");
}

#[test]
fn malformed_json_is_named_with_its_place() {
    let folder = folder("report-malformed");
    for (text, said) in [
        ("{", "report: this is no JSON: line 1, column 2: "),
        (
            "{\n  \"a\": 1,\n}",
            "report: this is no JSON: line 3, column 1: ",
        ),
        ("[1 2]", "report: this is no JSON: line 1, column 4: "),
    ] {
        expect(&import(&folder, text.as_bytes()), 1, "", said);
    }
    let excerpt = granted(4096) + ",\n";
    let said = "report: this is no JSON: line 10, column 10: something stands behind the end";
    expect(&import(&folder, excerpt.as_bytes()), 1, "", said);
    let said = "no entry has a sealing_type with the key MallocKey";
    expect(&import(&folder, report(&[], &[]).as_bytes()), 1, "", said);
    expect(&import(&folder, b"{}"), 1, "", said);
}

#[test]
fn an_entry_that_is_not_one_line_is_named() {
    let folder = folder("report-entries");
    let good = line(1);
    let not_a_line = "its contents is not one line of text";
    for (contents, said) in [
        ("7".to_owned(), not_a_line),
        ("null".to_owned(), not_a_line),
        (format!("\"{good}\\n{good}\""), not_a_line),
        (format!("\"{good}\\n\""), not_a_line),
        (format!("[\"{good}\"]"), not_a_line),
        ("\"\"".to_owned(), "refusal 31: "),
        (format!("\"{good} 00000000\""), "refusal 31: "),
        (format!("\"{}\"", good.replace('1', "A")), "refusal 31: "),
        (format!("\"{}\"", &good[..44]), "refusal 31: "),
        (format!("\"{}1\"", &good[..52]), "refusal 32: "),
    ] {
        let text = report(&[granted(5)], &[entry(&contents, "MallocKey"), granted(6)]);
        let said = format!("report: the MallocKey entry 2 at line 26, column 28: {said}");
        expect(&import(&folder, text.as_bytes()), 1, "", &said);
    }
    let without = granted(1).replace("contents", "content");
    let said = "report: the MallocKey entry 1 at line 1, column 1: its contents is not one line";
    expect(&import(&folder, without.as_bytes()), 1, "", said);
    let many: Vec<String> = (1..=33).map(granted).collect();
    let run = import(&folder, format!("[{}]", many.join(",\n")).as_bytes());
    expect(
        &run,
        1,
        "",
        "report: the MallocKey entry 33 at line 321, column 1: refusal 33: ",
    );
}

#[test]
fn grants_are_exported() {
    let folder = folder("report-export");
    let run = lokhazim(&folder, &["report", "export", "4096", "4294967295"]);
    let mut lines = vec![line(4096), line(u32::MAX)];
    lines.resize(32, line(0));
    expect(&run, 0, &(lines.join("\n") + "\n"), "");
    assert_eq!(run.stdout.len(), 1_728);
    expect(
        &import(&folder, &run.stdout),
        0,
        &printed(&[4096, u32::MAX]),
        "",
    );
    let all: Vec<String> = (1..=33).map(|grant: u32| grant.to_string()).collect();
    let words = |count: usize| -> Vec<&str> {
        let grants = all[..count].iter().map(String::as_str);
        ["report", "export"].into_iter().chain(grants).collect()
    };
    assert!(lokhazim(&folder, &words(32)).status.success());
    expect(
        &lokhazim(&folder, &words(33)),
        2,
        "",
        "33 grants are too many",
    );
    expect(
        &lokhazim(&folder, &words(0)),
        2,
        "",
        "'lokhazim help' lists",
    );
    for word in ["4294967296", "-1", "+1", "1.5", "0x10", "ff", ""] {
        let run = lokhazim(&folder, &["report", "export", "1", word]);
        expect(&run, 2, "", &format!("'{word}' is no grant: "));
    }
}

#[test]
fn an_imported_line_opens_a_heap() {
    let folder = folder("report-open");
    let out: PathBuf = folder.join("script");
    let run = import(&folder, (line(100) + "\n").as_bytes());
    let grants = String::from_utf8_lossy(&run.stdout).into_owned();
    fs::write(out, format!("open 128 {grants}alloc 0 10\nalloc 1 10\n")).unwrap();
    let run = lokhazim(&folder, &["replay", "script"]);
    expect(&run, 0, "ok\nok 8 16 1\nno 8\n0 24 1\n24 104 0\n", "");
}
