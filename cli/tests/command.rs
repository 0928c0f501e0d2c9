//! The command as its users meet it: what it prints, its exit status, and what it leaves alone.

mod support;

use std::fs;
use std::path::Path;

use support::{expect, folder, lokhazim, names, open};

use lokhazim::{grants, Edition, Heap, Kind, Options, QuotaId, FORM_1_QUOTAS};

/// The example of the rule book's replay section.
fn script() -> String {
    open(128, &[100, 1_000]) + "alloc 0 10\nalloc 0 68\nfree 1 8 16 1\n"
}

#[test]
fn a_script_is_replayed() {
    let folder = folder("replay");
    fs::write(folder.join("a"), script()).unwrap();
    let run = lokhazim(&folder, &["replay", "a"]);
    expect(&run, 0, "ok\nok 8 16 1\nno 8\nno 6\n0 24 1\n24 104 0\n", "");
    fs::write(folder.join("b"), script() + "lend 8 16 1\n").unwrap();
    let run = lokhazim(&folder, &["replay", "b"]);
    expect(
        &run,
        1,
        "ok\nok 8 16 1\nno 8\nno 6\nbad\n",
        "b: line 5 is not one",
    );
    fs::write(folder.join("c"), "").unwrap();
    expect(
        &lokhazim(&folder, &["replay", "c"]),
        1,
        "bad\n",
        "c is empty",
    );
    fs::write(folder.join("d"), "x".repeat(65_537)).unwrap();
    let run = lokhazim(&folder, &["replay", "d"]);
    expect(&run, 1, "bad\n", "d has 65537 bytes");
}

#[test]
fn an_image_is_saved_and_shown() {
    let folder = folder("image");
    fs::write(folder.join("a"), script()).unwrap();
    let blank =
        "quota 0 100 76 7\nquota 1 1000 1000 7\nhold 0 1 0 1\nblock 0 24 1\nblock 24 104 0\n";
    for (words, length, form) in [
        (&["image", "save", "a", "a.image"][..], 5_120, 2),
        (&["image", "save", "--form", "1", "a", "a.image"], 1_536, 1),
        (&["image", "save", "a", "a.image", "--form", "1"], 1_536, 1),
        (&["image", "save", "--form", "2", "a", "a.image"], 5_120, 2),
    ] {
        expect(&lokhazim(&folder, words), 0, &format!("ok {length}\n"), "");
        assert_eq!(names(&folder), ["a", "a.image"]);
        let shown = format!("ok {form} 128 1\nkind plain\nedition 1\n{blank}");
        let run = lokhazim(&folder, &["image", "show", "a.image"]);
        expect(&run, 0, &shown, "");
    }
}

#[test]
fn what_form_1_can_not_carry_is_not_written() {
    let folder = folder("carried");
    let save = |grants: &[u32]| {
        fs::write(folder.join("a"), open(128, grants)).unwrap();
        lokhazim(&folder, &["image", "save", "--form", "1", "a", "out"])
    };
    let mut grants = [0; FORM_1_QUOTAS + 1];
    expect(&save(&grants), 0, "ok 1536\n", "");
    fs::remove_file(folder.join("out")).unwrap();
    grants[FORM_1_QUOTAS] = 1;
    expect(&save(&grants), 1, "", "a: refusal 28:");
    assert_eq!(names(&folder), ["a"]);
}

#[test]
fn an_image_is_moved_up_and_down_again() {
    let folder = folder("move");
    fs::write(folder.join("a"), script()).unwrap();
    for (form, name) in [("1", "first"), ("2", "second")] {
        lokhazim(&folder, &["image", "save", "--form", form, "a", name]);
    }
    let run = lokhazim(&folder, &["image", "move", "up", "first", "up"]);
    expect(&run, 0, "ok 5120\n", "");
    let run = lokhazim(&folder, &["image", "move", "down", "up", "down"]);
    expect(&run, 0, "ok 1536\n", "");
    assert_eq!(names(&folder), ["a", "down", "first", "second", "up"]);
    for (made, wanted) in [("up", "second"), ("down", "first")] {
        let [made, wanted] = [made, wanted].map(|name| fs::read(folder.join(name)).unwrap());
        assert_eq!(made, wanted);
    }
}

#[test]
fn what_is_not_moved_leaves_the_file() {
    let folder = folder("unmoved");
    let save = |form: &str, grants: &[u32], name: &str| {
        fs::write(folder.join("a"), open(128, grants)).unwrap();
        lokhazim(&folder, &["image", "save", "--form", form, "a", name]);
    };
    save("1", &[5], "first");
    save("2", &[5], "second");
    save("2", &[5; FORM_1_QUOTAS + 1], "wide");
    fs::write(folder.join("out"), b"what was there").unwrap();
    for (way, name, status, said) in [
        ("up", "second", 1, "second: refusal 23:"),
        ("down", "first", 1, "first: refusal 23:"),
        ("down", "wide", 1, "wide: refusal 28:"),
        ("up", "a", 1, "a: refusal 21:"),
        ("up", "nothere", 2, "nothere can't be read: "),
    ] {
        let run = lokhazim(&folder, &["image", "move", way, name, "out"]);
        expect(&run, status, "", said);
        assert_eq!(fs::read(folder.join("out")).unwrap(), b"what was there");
    }
    let nowhere = ["image", "move", "up", "first", "nowhere/out"];
    let run = lokhazim(&folder, &nowhere);
    expect(&run, 2, "", "nowhere/out can't be written: ");
    let there = ["a", "first", "out", "second", "wide"];
    assert_eq!(names(&folder), there);
}

/// Permissions that were cleared in a heap of the library come back from its image, and are shown
/// also for a quota without a grant.
#[test]
fn permissions_are_shown() {
    let folder = folder("permissions");
    let mut memory = [0; 64];
    let mut heap = Heap::open(&mut memory, grants([9])).unwrap();
    heap.clear_permissions(QuotaId::new(0), lokhazim::Permissions::CLAIM)
        .unwrap();
    heap.clear_permissions(QuotaId::new(31), lokhazim::Permissions::ALL)
        .unwrap();
    let mut image = [0; 5_120];
    heap.save(&mut image).unwrap();
    fs::write(folder.join("a.image"), image).unwrap();
    let run = lokhazim(&folder, &["image", "show", "a.image"]);
    expect(
        &run,
        0,
        "ok 2 64 0\nkind plain\nedition 1\nquota 0 9 9 5\nquota 31 0 0 0\nblock 0 64 0\n",
        "",
    );
}

/// Writes the image of a heap with quarantine in which one of two objects was released, and of the
/// same heap swept, or opened plain.
fn quarantined_images(folder: &Path) {
    let kinds = [
        ("plain", Kind::Plain),
        ("waiting", Kind::Quarantine),
        ("swept", Kind::Quarantine),
    ];
    for (name, kind) in kinds {
        let mut memory = [0; 64];
        let options = Options {
            kind,
            ..Options::default()
        };
        let mut heap = Heap::open_with(&mut memory, grants([100]), options).unwrap();
        let first = heap.allocate(QuotaId::new(0), 16).unwrap();
        heap.allocate(QuotaId::new(0), 8).unwrap();
        heap.release(QuotaId::new(0), first).unwrap();
        if name == "swept" {
            assert_eq!(heap.sweep(), Ok(24));
        }
        let mut image = [0; 5_120];
        heap.save(&mut image).unwrap();
        fs::write(folder.join(name), image).unwrap();
    }
}

#[test]
fn quarantined_blocks_are_shown_and_compared() {
    let folder = folder("quarantine");
    quarantined_images(&folder);
    let rest = "quota 0 100 84 7\nhold 1 2 0 1\n";
    for (name, kind, first) in [
        ("plain", "plain", "0"),
        ("waiting", "quarantine", "quarantined"),
        ("swept", "quarantine", "0"),
    ] {
        let blocks = format!("block 0 24 {first}\nblock 24 16 2\nblock 40 24 0\n");
        let shown = format!("ok 2 64 2\nkind {kind}\nedition 1\n{rest}{blocks}");
        expect(&lokhazim(&folder, &["image", "show", name]), 0, &shown, "");
    }
    let compare = |a: &str, b: &str, listed: &str| {
        let run = lokhazim(&folder, &["image", "compare", a, b]);
        assert_eq!(String::from_utf8_lossy(&run.stdout), listed);
        assert_eq!((run.status.code(), run.stderr.len()), (Some(1), 0));
    };
    compare("plain", "swept", "kind\n");
    compare("waiting", "plain", "kind\nbytes 4 4\n");
    compare("waiting", "swept", "bytes 4 4\n");
    for name in ["waiting", "swept"] {
        let run = lokhazim(&folder, &["image", "move", "down", name, "out"]);
        expect(&run, 1, "", &format!("{name}: refusal 28:"));
    }
    assert_eq!(names(&folder), ["plain", "swept", "waiting"]);
}

#[test]
fn editions_are_shown_and_compared() {
    let folder = folder("editions");
    let image_of = |name: &str, kind, edition| {
        let mut memory = [0; 64];
        let options = Options { kind, edition };
        let heap = Heap::open_with(&mut memory, grants([100]), options).unwrap();
        let mut image = [0; 5_120];
        heap.save(&mut image).unwrap();
        fs::write(folder.join(name), image).unwrap();
    };
    image_of("first", Kind::Plain, Edition::First);
    image_of("second", Kind::Plain, Edition::Second);
    image_of("both", Kind::Quarantine, Edition::Second);
    let rest = "quota 0 100 100 7\nblock 0 64 0\n";
    for (name, marks) in [
        ("first", "kind plain\nedition 1\n"),
        ("second", "kind plain\nedition 2\n"),
        ("both", "kind quarantine\nedition 2\n"),
    ] {
        let shown = format!("ok 2 64 0\n{marks}{rest}");
        expect(&lokhazim(&folder, &["image", "show", name]), 0, &shown, "");
    }
    for (other, listed) in [("second", "edition\n"), ("both", "kind\nedition\n")] {
        let run = lokhazim(&folder, &["image", "compare", "first", other]);
        assert_eq!(String::from_utf8_lossy(&run.stdout), listed);
        assert_eq!((run.status.code(), run.stderr.len()), (Some(1), 0));
        let run = lokhazim(&folder, &["image", "move", "down", other, "out"]);
        expect(&run, 1, "", &format!("{other}: refusal 28:"));
    }
    assert_eq!(names(&folder), ["both", "first", "second"]);
}

#[test]
fn a_damaged_image_is_refused_with_its_number() {
    let folder = folder("damaged");
    fs::write(folder.join("a"), script()).unwrap();
    lokhazim(&folder, &["image", "save", "a", "a.image"]);
    let image = fs::read(folder.join("a.image")).unwrap();
    let show = |bytes: &[u8]| {
        fs::write(folder.join("b"), bytes).unwrap();
        lokhazim(&folder, &["image", "show", "b"])
    };
    expect(&show(&image[..1_000]), 1, "", "b: refusal 21:");
    expect(&show(&[]), 1, "", "b: refusal 21:");
    expect(&show(&image[..1_024]), 1, "", "b: refusal 22:");
    let mut changed = image.clone();
    changed[700] ^= 1;
    expect(&show(&changed), 1, "", "b: refusal 22:");
}

#[test]
fn two_images_are_compared() {
    let folder = folder("compare");
    fs::write(folder.join("a"), script()).unwrap();
    fs::write(folder.join("b"), script() + "alloc 1 8\n").unwrap();
    fs::write(folder.join("c"), open(64, &[])).unwrap();
    for name in ["a", "b", "c"] {
        lokhazim(&folder, &["image", "save", name, &format!("{name}.image")]);
    }
    let compare = |a: &str, b: &str| lokhazim(&folder, &["image", "compare", a, b]);
    expect(&compare("a.image", "a.image"), 0, "", "");
    let listed = "serial\nquota 1\nrecord 1\nbytes 24 1\nbytes 28 1\nbytes 40 1\nbytes 42 1\n";
    let run = compare("a.image", "b.image");
    assert_eq!(String::from_utf8_lossy(&run.stdout), listed);
    assert_eq!((run.status.code(), run.stderr.len()), (Some(1), 0));
    expect(
        &compare("a.image", "c.image"),
        2,
        "",
        "a.image and c.image: refusal 27:",
    );
    let first_form = ["image", "save", "--form", "1", "c", "d.image"];
    lokhazim(&folder, &first_form);
    expect(
        &compare("a.image", "d.image"),
        2,
        "",
        "a.image and d.image: refusal 29:",
    );
    expect(&compare("a.image", "a"), 2, "", "a: refusal 21:");
    expect(&compare("a", "b"), 2, "", "a: refusal 21:");
    expect(
        &compare("a.image", "nothere"),
        2,
        "",
        "nothere can't be read",
    );
}

#[test]
fn what_is_refused_writes_no_image() {
    let folder = folder("refused");
    let old = b"what was there".to_vec();
    fs::write(folder.join("out"), &old).unwrap();
    for (script, said) in [
        (open(56, &[]), "the opening: refusal 1:"),
        (open(4_294_967_288, &[]), "the opening: refusal 1:"),
        (open(64, &[]) + "alloc 0\n", "line 2 is not one"),
        (open(64, &[]) + "alloc 0 8", "line 2 is not one"),
        ("open 64 0 0 0 0 0 0 0 0\n".to_owned(), "line 1 is not one"),
    ] {
        fs::write(folder.join("a"), script).unwrap();
        expect(
            &lokhazim(&folder, &["image", "save", "a", "out"]),
            1,
            "",
            said,
        );
        assert_eq!(fs::read(folder.join("out")).unwrap(), old);
    }
    assert_eq!(names(&folder), ["a", "out"]);
}

#[test]
fn files_that_are_missing_or_can_not_be_written() {
    let folder = folder("files");
    fs::write(folder.join("a"), script()).unwrap();
    fs::create_dir(folder.join("taken")).unwrap();
    let missing = "nothere can't be read: ";
    expect(&lokhazim(&folder, &["replay", "nothere"]), 2, "", missing);
    expect(
        &lokhazim(&folder, &["image", "show", "nothere"]),
        2,
        "",
        missing,
    );
    expect(
        &lokhazim(&folder, &["image", "save", "nothere", "out"]),
        2,
        "",
        missing,
    );
    let nowhere = ["image", "save", "a", "nowhere/out"];
    expect(
        &lokhazim(&folder, &nowhere),
        2,
        "",
        "nowhere/out can't be written: ",
    );
    let taken = ["image", "save", "a", "taken"];
    expect(
        &lokhazim(&folder, &taken),
        2,
        "",
        "taken can't be written: ",
    );
    assert_eq!(names(&folder), ["a", "taken"]);
}

#[test]
fn wrong_words_get_help() {
    let folder = folder("words");
    for words in [
        &[][..],
        &["play"],
        &["image"],
        &["image", "save", "a"],
        &["image", "save", "--form", "3", "a", "b"],
        &["image", "move", "up", "a"],
        &["image", "move", "over", "a", "b"],
    ] {
        expect(&lokhazim(&folder, words), 2, "", "'lokhazim help' lists");
    }
    for words in [["help"], ["--help"], ["-h"]] {
        let run = lokhazim(&folder, &words);
        assert!(run.status.success() && run.stdout.starts_with(b"lokhazim: "));
    }
    assert!(lokhazim(&folder, &["version"]).status.success());
}
