//! What can't be drawn: what is said of it, and that no file is written.

mod support;

use std::fs;

use support::{expect, folder, lokhazim, names, open};

#[test]
fn what_is_refused_leaves_the_file() {
    let folder = folder("draw-refused");
    fs::write(folder.join("a"), open(64, &[])).unwrap();
    lokhazim(&folder, &["image", "save", "a", "a.image"]);
    let image = fs::read(folder.join("a.image")).unwrap();
    let mut changed = image.clone();
    changed[700] ^= 1;
    fs::write(folder.join("out.svg"), b"what was there").unwrap();
    for (bytes, said) in [
        (
            Vec::new(),
            "b is empty: its first line has to be an opening",
        ),
        (open(56, &[]).into_bytes(), "b: the opening: refusal 1:"),
        (
            (open(64, &[]) + "lend 8 16 1\n").into_bytes(),
            "b: line 2 is not one",
        ),
        (
            (open(64, &[]) + "alloc 0 8").into_bytes(),
            "b: line 2 is not one",
        ),
        (
            (open(64, &[]) + "all\0 0\n").into_bytes(),
            "b: line 2 is not one",
        ),
        (
            (open(64, &[]) + "all \u{e9}\n").into_bytes(),
            "b: line 2 is not one",
        ),
        (vec![b'x'; 65_537], "b has 65537 bytes"),
        (image[..1_000].to_vec(), "b: refusal 21:"),
        (image[..1_024].to_vec(), "b: refusal 22:"),
        (changed, "b: refusal 22:"),
    ] {
        fs::write(folder.join("b"), bytes).unwrap();
        let run = lokhazim(&folder, &["draw", "b", "-o", "out.svg"]);
        expect(&run, 1, "", said);
        assert_eq!(fs::read(folder.join("out.svg")).unwrap(), b"what was there");
    }
    let run = lokhazim(&folder, &["draw", "-", "-o", "out.svg"]);
    expect(&run, 1, "", "- is empty");
    assert_eq!(names(&folder), ["a", "a.image", "b", "out.svg"]);
}

#[test]
fn wrong_words_and_files_draw_nothing() {
    let folder = folder("draw-words");
    fs::write(folder.join("a"), open(64, &[])).unwrap();
    lokhazim(&folder, &["image", "save", "a", "a.image"]);
    fs::create_dir(folder.join("taken.svg")).unwrap();
    for (words, said) in [
        (&["draw"][..], "nothing is named that could be drawn"),
        (&["draw", "a"], "no file is named to draw into"),
        (&["draw", "a", "-o"], "-o names no file"),
        (&["draw", "a", "-o", "b.png"], "ends in .svg or .html"),
        (&["draw", "a", "b", "-o", "b.svg"], "'b' is one too many"),
        (
            &["draw", "a", "-o", "b.svg", "--colour"],
            "'--colour' is not understood",
        ),
        (
            &["draw", "a", "-o", "b.svg", "--edition", "3"],
            "--edition is 1 or 2",
        ),
        (
            &["draw", "a.image", "-o", "b.svg", "--quarantine"],
            "an image has its own kind",
        ),
        (
            &["draw", "nothere", "-o", "b.svg"],
            "nothere can't be read: ",
        ),
        (
            &["draw", "a", "-o", "nowhere/b.svg"],
            "nowhere/b.svg can't be written: ",
        ),
        (
            &["draw", "a", "-o", "taken.svg"],
            "taken.svg can't be written: ",
        ),
    ] {
        expect(&lokhazim(&folder, words), 2, "", said);
    }
    assert_eq!(names(&folder), ["a", "a.image", "taken.svg"]);
    let help = lokhazim(&folder, &["help"]).stdout;
    assert!(String::from_utf8_lossy(&help).contains("lokhazim draw SCRIPT|IMAGE -o FILE.svg"));
}
