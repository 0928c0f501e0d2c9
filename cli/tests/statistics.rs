//! The statistics that the command prints: of a script with its marks, with quarantine, of an image; and what has none.

mod support;

use std::fs;

use support::{expect, folder, lokhazim, names, open};

/// The statistics of the script `calls`, behind an opening of 256 bytes.
const STATISTICS: &str = "\
heap of 256 bytes, plain, edition 1

                      blocks   bytes
free                       2     192
live                       2      64
quarantined                0       0
largest free block               144
fragmented                        48
longest in unit 8                136
longest in unit 16                 0
longest in unit 32                 0
longest in unit 64                 0
records                    3 of 512
last serial                        3

quota          grant   remaining  objects  shared
0                200         136        2       1
1                100          76        1       1
";

/// The marks of the script.
const MARKS: &str = "
over the script                       after line
most live bytes                  112           4
most quarantined bytes             0           1
fewest free bytes                144           4
least longest request            136           4
most records                       4           6
most spent by quota 0            112           4
most spent by quota 1             24           6
";

/// Three objects, of which the first is released; quota 1 claims the second. A refused call stands
/// in between.
fn calls() -> String {
    open(256, &[200, 100])
        + "alloc 0 40\nalloc 0 16\nalloc 0 32\nalloc 1 100\nclaim 1 56 16 2\nfree 0 8 40 1\n"
}

#[test]
fn a_script_has_statistics_and_marks() {
    let folder = folder("statistics");
    fs::write(folder.join("a"), calls()).unwrap();
    let run = lokhazim(&folder, &["statistics", "a"]);
    expect(&run, 0, &format!("{STATISTICS}{MARKS}"), "");
}

#[test]
fn an_image_has_statistics_alone() {
    let folder = folder("stats-image");
    fs::write(folder.join("a"), calls()).unwrap();
    lokhazim(&folder, &["image", "save", "a", "a.image"]);
    expect(
        &lokhazim(&folder, &["statistics", "a.image"]),
        0,
        STATISTICS,
        "",
    );
}

#[test]
fn quarantine_and_edition_2_are_told() {
    let folder = folder("stats-quarantine");
    fs::write(folder.join("a"), calls() + "sweep\n").unwrap();
    let run = lokhazim(
        &folder,
        &["statistics", "--quarantine", "a", "--edition", "2"],
    );
    let text = String::from_utf8_lossy(&run.stdout).into_owned();
    for line in [
        "heap of 256 bytes, quarantine, edition 2\n",
        "free                       2     192\n",
        "quarantined                0       0\n",
        "most quarantined bytes            48           7\n",
    ] {
        assert!(text.contains(line), "{line} is not in\n{text}");
    }
}

#[test]
fn wrong_words_and_files_have_no_statistics() {
    let folder = folder("stats-refused");
    fs::write(folder.join("a"), open(64, &[])).unwrap();
    lokhazim(&folder, &["image", "save", "a", "a.image"]);
    fs::write(folder.join("short"), open(56, &[])).unwrap();
    fs::write(folder.join("bad"), open(64, &[]) + "lend 8 16 1\n").unwrap();
    let usage = "say 'lokhazim statistics SCRIPT|IMAGE'";
    for (words, status, said) in [
        (&["statistics"][..], 2, usage),
        (&["statistics", "a", "a"], 2, "'a' is one too many"),
        (
            &["statistics", "a", "--edition", "3"],
            2,
            "--edition is 1 or 2",
        ),
        (
            &["statistics", "a", "--json"],
            2,
            "'--json' is not understood",
        ),
        (
            &["statistics", "a.image", "--quarantine"],
            2,
            "an image has its own kind",
        ),
        (&["statistics", "missing"], 2, "missing can't be read"),
        (
            &["statistics", "short"],
            1,
            "short: the opening: refusal 1:",
        ),
        (&["statistics", "bad"], 1, "bad: line 2 is not one"),
    ] {
        expect(&lokhazim(&folder, words), status, "", said);
    }
    assert_eq!(names(&folder), ["a", "a.image", "bad", "short"]);
}
