//! Pictures as their readers meet them: what is drawn of scripts and images.

#[allow(dead_code)]
mod support;
#[path = "support/xml.rs"]
mod xml;

use std::fs;
use std::path::Path;

use support::{expect, folder, lokhazim, names, open};
use xml::Element;

use lokhazim::{grants, Heap, Kind, Options, Permissions, QuotaId};

/// A script: an opening with these grants, then these calls.
fn script(length: u32, first: &[u32], calls: &str) -> String {
    open(length, first) + calls
}

/// Draws a file with more words and gives the document, which has to be well-formed.
fn drawn(folder: &Path, input: &str, more: &[&str], out: &str) -> Element {
    let words = [&["draw", input, "-o", out][..], more].concat();
    let run = lokhazim(folder, &words);
    let text = fs::read_to_string(folder.join(out)).unwrap_or_default();
    expect(&run, 0, &format!("ok {}\n", text.len()), "");
    xml::read(&text).unwrap_or_else(|wrong| panic!("{out}: {wrong}"))
}

/// Draws a script with more words.
fn drawn_script(folder: &Path, script: &str, more: &[&str]) -> Element {
    fs::write(folder.join("a.replay"), script).unwrap();
    drawn(folder, "a.replay", more, "a.svg")
}

/// What is said on hover and begins with a word.
fn hovers(picture: &Element, word: &str) -> Vec<String> {
    let mut titles = picture.texts("title", "");
    titles.retain(|title| title.starts_with(word));
    titles
}

/// A script with every kind of call, and with refusals.
const EVERY: &str =
    "alloc 0 40\narray 1 3 12\nclaim 2 8 40 1\nclaim 2 8 40 1\nrealloc 1 56 40 2 64\n\
    alloc 3 93\nfree 3 8 40 1\nclaim 3 8 40 1\nfree 0 8 40 1\nall 2\nall 1\n";

#[test]
fn a_small_picture_is_exact() {
    let folder = folder("draw-small");
    let picture = drawn_script(&folder, &script(64, &[39], "alloc 0 16\nalloc 0 8\n"), &[]);
    let text = fs::read_to_string(folder.join("a.svg")).unwrap();
    for part in [
        "<title>a.replay: a script of 2 calls, 1 refused: a heap of 64 bytes, plain, edition 1</title>",
        // The object from the call that made it to the end, over 24 of 64 bytes.
        "<g><title>object 8 16 1, held by q0; its block is at offset 0, 24 bytes; from line 2 (alloc 0 16) to the end</title>\n\
         <rect class=\"fill\" x=\"259\" y=\"253.5\" width=\"195\" height=\"82.5\" fill=\"url(#q0)\"/>\n</g>",
        "<path class=\"outline\" d=\"M454 253.5L259 253.5L259 336L454 336\"/>",
        // The refused call.
        "<line class=\"dashed\" x1=\"389\" y1=\"116\" x2=\"389\" y2=\"336\"/>",
        "<text class=\"number\" x=\"389\" y=\"108.5\">8</text>",
        // The strip.
        "<rect class=\"fill\" x=\"64\" y=\"423\" width=\"325.5\" height=\"46\" fill=\"url(#q0)\"/>\n\
         <rect class=\"header\" x=\"64\" y=\"423\" width=\"108.5\" height=\"46\"/>",
        "<g><title>free block at offset 24, 40 bytes</title>\n<rect class=\"blank\" x=\"389.5\" y=\"423\" width=\"542.5\" height=\"46\"/>",
        "<text class=\"legend\" x=\"103\" y=\"514.5\">q0: quota 0, 39 granted, 15 left</text>",
    ] {
        assert!(text.contains(part), "{part}\nis not in\n{text}");
    }
    assert_eq!(picture.texts("text", "level"), ["0", "24", "64"]);
    assert_eq!(picture.texts("text", "offset"), ["64", "0", "24"]);
    assert_eq!(
        picture.texts("text", "call"),
        ["open 64", "alloc 0 16", "alloc 0 8"]
    );
    assert_eq!(picture.texts("text", "answer"), ["ok", "ok 8 16 1", "no 8"]);
    assert_eq!(picture.find("text", "note").len(), 0);
}

#[test]
fn every_call_is_told_on_hover_and_in_the_table() {
    let folder = folder("draw-every");
    let script = script(512, &[300, 300, 300, 100], EVERY);
    let picture = drawn_script(&folder, &script, &[]);
    let said = hovers(&picture, "line ");
    assert_eq!(said.len(), script.lines().count());
    for (line, (said, words)) in (1..).zip(said.iter().zip(script.lines())) {
        assert!(
            said.starts_with(&format!("line {line}: {words}: ")),
            "{said}"
        );
    }
    assert_eq!(picture.texts("text", "number"), ["8", "6", "n"]);
    let marks = picture.texts("text", "mark");
    for mark in ["#1 q0", "#2 q1", "#3 q1", "q2", "q2 \u{d7}2", "q3"] {
        assert!(marks.contains(&mark.to_owned()), "{mark} in {marks:?}");
    }

    let page = drawn(&folder, "a.replay", &[], "a.html");
    assert_eq!(page.name, "html");
    assert_eq!(page.find("svg", "heap").len(), 1);
    let rows = page.find("tr", "");
    let cells = |row: usize| -> Vec<&str> {
        let cells = rows[row].children.iter();
        cells.map(|cell| cell.text.as_str()).collect()
    };
    let heads = [
        "line",
        "call",
        "answer",
        "live objects",
        "remaining of its quota",
    ];
    assert_eq!(cells(0), heads);
    assert_eq!(
        cells(6),
        ["6", "realloc 1 56 40 2 64", "ok 104 64 3", "2", "228"]
    );
    let reason = "refusal 8: the object costs its length plus 8, and less remains of the quota; release something or ask for less";
    assert_eq!(cells(7), ["7", "alloc 3 93", reason, "2", "100"]);
    assert_eq!(
        rows[7].attribute("title"),
        format!("line 7: alloc 3 93: {reason}")
    );
    assert_eq!(cells(12), ["12", "all 1", "ok 72", "1", "300"]);
    assert_eq!(rows.len(), 13);
}

/// The blocks of the strip are those that the proved replay prints.
#[test]
fn the_strip_is_what_the_replay_prints() {
    let folder = folder("draw-strip");
    let mut calls = String::from(EVERY);
    for round in 0..40 {
        calls += &format!("alloc {} {}\n", round % 4, 1 + round * 5 % 37);
        if round % 9 == 8 {
            calls += &format!("all {}\n", round % 3);
        }
    }
    let picture = drawn_script(&folder, &script(1024, &[400, 300, 300, 300], &calls), &[]);
    let printed = lokhazim(&folder, &["replay", "a.replay"]).stdout;
    let printed = String::from_utf8(printed).unwrap();
    let blocks: Vec<&str> = printed
        .lines()
        .filter(|line| !line.contains(['o', 'n']))
        .collect();
    let mut said = picture.texts("title", "");
    said.retain(|title| title.contains("block") && !title.contains("from line"));
    assert_eq!(said.len(), blocks.len());
    for (said, block) in said.iter().zip(blocks) {
        let numbers: Vec<&str> = block.split(' ').collect();
        let place = format!("at offset {}, {} bytes", numbers[0], numbers[1]);
        assert!(said.ends_with(&place), "{said}");
        let is_free = said.starts_with("free block");
        assert!(is_free == (numbers[2] == "0"), "{said}");
        assert!(
            is_free || said.contains(&format!(" {}, held by q", numbers[2])),
            "{said}"
        );
    }
}

#[test]
fn nothing_comes_from_outside_and_nothing_changes() {
    let folder = folder("draw-same");
    let elsewhere = folder.join("elsewhere");
    fs::create_dir(&elsewhere).unwrap();
    drawn_script(&folder, &script(512, &[300, 300, 300, 100], EVERY), &[]);
    for name in ["a.svg", "a.html"] {
        drawn(&folder, "a.replay", &[], name);
        drawn(&elsewhere, "../a.replay", &[], name);
        let text = fs::read_to_string(folder.join(name)).unwrap();
        assert_eq!(text, fs::read_to_string(elsewhere.join(name)).unwrap());
        let text = text.replacen("xmlns=\"http://www.w3.org/2000/svg\"", "", 1);
        for outside in ["<script", "http", "href", "src=", "@import", "onload"] {
            assert!(!text.contains(outside), "{outside} in {name}");
        }
        assert_eq!(text.matches("url(").count(), text.matches("url(#").count());
    }
    let picture = fs::read_to_string(folder.join("a.svg")).unwrap();
    let page = fs::read_to_string(folder.join("a.html")).unwrap();
    let (_, element) = picture.split_once('\n').unwrap();
    assert!(page.contains(element), "the page has another picture");
}

#[test]
fn a_name_is_no_markup() {
    let folder = folder("draw-names");
    let name = "<b>&\"it's\".replay";
    fs::write(folder.join(name), script(64, &[], "")).unwrap();
    for out in ["a.svg", "a.html"] {
        let picture = drawn(&folder, name, &[], out);
        assert_eq!(picture.texts("text", "title"), [name]);
        assert!(picture.texts("title", "")[0].starts_with(name));
    }
    fs::write(folder.join("a\u{1}b"), script(64, &[], "")).unwrap();
    let picture = drawn(&folder, "a\u{1}b", &[], "a.svg");
    assert_eq!(picture.texts("text", "title"), ["a\u{fffd}b"]);
    let long = "n".repeat(200);
    fs::write(folder.join(&long), script(64, &[], "")).unwrap();
    let picture = drawn(&folder, &long, &[], "a.svg");
    assert_eq!(
        picture.texts("text", "title"),
        ["n".repeat(63) + "\u{2026}"]
    );
}

#[test]
fn images_of_both_forms_are_drawn() {
    let folder = folder("draw-images");
    fs::write(
        folder.join("a"),
        script(128, &[100, 100], "alloc 0 10\nclaim 1 8 16 1\n"),
    )
    .unwrap();
    for form in ["1", "2"] {
        lokhazim(&folder, &["image", "save", "--form", form, "a", "a.image"]);
        let picture = drawn(&folder, "a.image", &[], "a.svg");
        let about = format!("An image of form {form}: a heap of 128 bytes, plain, edition 1");
        assert_eq!(picture.texts("text", "summary"), [about]);
        let heading = "The heap in the image: 1 object in 24 bytes, 1 free block of 104";
        assert_eq!(picture.texts("text", "heading"), [heading]);
        let marks = picture.texts("text", "mark");
        assert_eq!(
            marks,
            ["#1, 16 bytes", "q1", "q0", "free block of 104 bytes", "#n"]
        );
        let page = drawn(&folder, "a.image", &[], "a.html");
        let cells = page.texts("td", "words");
        assert_eq!(cells, ["8 16 1", "free"]);
    }
    assert_eq!(names(&folder), ["a", "a.html", "a.image", "a.svg"]);
}

#[test]
fn quarantine_permissions_and_editions_are_drawn() {
    let folder = folder("draw-kinds");
    let options = Options {
        kind: Kind::Quarantine,
        ..Options::default()
    };
    let mut memory = [0; 128];
    let mut heap = Heap::open_with(&mut memory, grants([100]), options).unwrap();
    let quota = QuotaId::new(0);
    let first = heap.allocate(quota, 40).unwrap();
    heap.allocate(quota, 8).unwrap();
    heap.release(quota, first).unwrap();
    heap.clear_permissions(quota, Permissions::CLAIM).unwrap();
    let mut image = [0; 5_120];
    heap.save(&mut image).unwrap();
    fs::write(folder.join("a.image"), image).unwrap();
    let picture = drawn(&folder, "a.image", &[], "a.svg");
    let legend = picture.texts("text", "legend");
    assert_eq!(
        legend[0],
        "q0: quota 0, 100 granted, 84 left; may not claim"
    );
    assert!(legend.contains(&"quarantined: waits for a sweep".to_owned()));
    assert_eq!(
        hovers(&picture, "quarantined"),
        ["quarantined block at offset 0, 48 bytes"]
    );

    let calls = script(
        64,
        &[100],
        "alloc 0 56\nfree 0 8 56 1\nalloc 0 56\nsweep\nalloc 0 56\n",
    );
    let picture = drawn_script(&folder, &calls, &["--quarantine"]);
    let waited =
        "quarantined block at offset 0, 64 bytes; from line 3 (free 0 8 56 1) to line 5 (sweep)";
    assert_eq!(hovers(&picture, "quarantined"), [waited]);
    assert_eq!(picture.texts("text", "number"), ["11", "n"]);
    assert_eq!(picture.texts("text", "answer")[4..], ["ok 64", "ok 8 56 2"]);
    let run = lokhazim(&folder, &["draw", "a.replay", "-o", "b.svg"]);
    expect(&run, 1, "", "a.replay: line 5 is not one");

    let calls = script(8192, &[9_000], "alloc 0 4089\n");
    for (edition, base) in [("1", 8), ("2", 16)] {
        let picture = drawn_script(&folder, &calls, &["--edition", edition]);
        let object = format!("object {base} 4096 1, held by q0;");
        assert!(hovers(&picture, "object")[0].starts_with(&object));
        assert!(picture.texts("text", "summary")[0].ends_with(&format!("edition {edition}")));
    }
}

#[test]
fn many_holders_of_an_object_are_counted() {
    let folder = folder("draw-holders");
    let claims: String = (1..32).map(|q| format!("claim {q} 8 104 1\n")).collect();
    let calls = format!("alloc 0 100\n{claims}");
    let picture = drawn_script(&folder, &script(512, &[300; 32], &calls), &[]);
    nothing_touches(&picture);
    let marks = picture.texts("text", "mark");
    assert!(marks.contains(&"32 holders".to_owned()), "{marks:?}");
    let bands = picture.find("rect", "fill");
    // One band for each holder behind each call, and those of the strip.
    assert_eq!(bands.len(), (1..=32).sum::<usize>() + 32);
    assert_eq!(picture.find("pattern", "").len(), 32);
    assert_eq!(
        picture.texts("text", "legend")[31],
        "q31: quota 31, 300 granted, 188 left"
    );
}

/// The place of a text: left, right and base line.
fn place(text: &Element) -> (f64, f64, f64) {
    let size = match text.attribute("class") {
        "mark" | "number" => 11.0,
        _ => 10.0,
    };
    let width = 0.602 * size * text.text.chars().count() as f64;
    let left = match text.attribute("class") {
        "level" => text.number("x") - width,
        _ => text.number("x") - width / 2.0,
    };
    (left, left + width, text.number("y"))
}

/// The labels that stand flat in a picture don't touch each other or the picture's edges.
fn nothing_touches(picture: &Element) {
    let classes = ["mark", "number", "offset", "call", "answer", "level"];
    let mut places: Vec<(f64, f64, f64, &str)> = Vec::new();
    for text in classes.iter().flat_map(|class| picture.find("text", class)) {
        let (left, right, y) = place(text);
        assert!(left >= 0.0 && right <= picture.number("width"), "{text:?}");
        assert!(y >= 10.0 && y <= picture.number("height"), "{text:?}");
        for (l, r, below, other) in &places {
            let apart = right < *l || *r < left || (y - below).abs() >= 9.0;
            assert!(apart, "{} and {other} touch", text.text);
        }
        places.push((left, right, y, &text.text));
    }
}

#[test]
fn many_objects_and_many_calls_keep_their_labels_apart() {
    let folder = folder("draw-many");
    let allocations = |count: usize| -> String {
        let call = |n| format!("alloc {} {}\n", n % 32, 1 + n * 7 % 48);
        (0..count).map(call).collect()
    };
    let every = script(512, &[300, 300, 300, 100], EVERY);
    nothing_touches(&drawn_script(&folder, &every, &[]));
    for count in [0, 1, 5, 16, 40, 90, 512] {
        let script = script(32_768, &[9_000; 32], &allocations(count));
        let picture = drawn_script(&folder, &script, &[]);
        nothing_touches(&picture);
        assert_eq!(hovers(&picture, "object").len(), 2 * count);
        assert_eq!(hovers(&picture, "line ").len(), count + 1);
    }
    let full = script(
        32_768,
        &[9_000; 32],
        &(allocations(512) + &"alloc 0 8\n".repeat(200)),
    );
    let picture = drawn_script(&folder, &full, &[]);
    nothing_touches(&picture);
    let notes = picture.texts("text", "note");
    assert!(
        notes[1].contains(" labels are left out or shortened"),
        "{notes:?}"
    );
    assert_eq!(picture.find("line", "refused").len(), 200);
    let longest = script(64, &[8], &"all 0\n".repeat(10_000));
    let picture = drawn_script(&folder, &longest, &[]);
    assert_eq!(hovers(&picture, "line ").len(), 10_001);
}
