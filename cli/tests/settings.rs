//! The settings as users of the command meet them.

#[allow(dead_code)]
mod support;

use std::fs;

use support::{expect, folder, lokhazim, names};

#[test]
fn values_are_added_asked_for_and_listed() {
    let folder = folder("settings");
    let run = |words: &[&str]| lokhazim(&folder, &[&["settings"], words].concat());
    fs::write(folder.join("b"), "").unwrap();
    fs::write(folder.join("d"), [0, 0, 7, 3, b'o', b'f', b'f']).unwrap();
    expect(&run(&["add", "b", "7", "513", "on"]), 0, "ok 6\n", "");
    assert_eq!(
        fs::read(folder.join("b")).unwrap(),
        [1, 2, 7, 2, b'o', b'n']
    );
    expect(&run(&["find", "b", "d", "7", "512"]), 0, "off", "");
    expect(&run(&["find", "b", "d", "7", "513"]), 0, "on", "");
    expect(
        &run(&["add", "b", "7", "513", "0aFF", "--hex"]),
        0,
        "ok 12\n",
        "",
    );
    expect(
        &run(&["find", "b", "d", "7", "65535", "--hex"]),
        0,
        "0aff\n",
        "",
    );
    expect(&run(&["add", "b", "255", "65535", ""]), 0, "ok 16\n", "");
    expect(
        &run(&["list", "b"]),
        0,
        "entry 513 7 2 6f6e\nentry 513 7 2 0aff\nentry 65535 255 0\n",
        "",
    );
    assert_eq!(names(&folder), ["b", "d"]);
}

#[test]
fn each_refusal_names_file_number_and_reason() {
    let folder = folder("settings-refused");
    let run = |words: &[&str]| lokhazim(&folder, &[&["settings"], words].concat());
    let good = [1, 2, 7, 2, b'o', b'n'];
    fs::write(folder.join("b"), good).unwrap();
    fs::write(folder.join("cut"), &good[..5]).unwrap();
    fs::write(folder.join("e"), "").unwrap();
    expect(
        &run(&["find", "cut", "b", "7", "513"]),
        1,
        "",
        "lokhazim: cut: refusal 41: a store",
    );
    expect(
        &run(&["find", "b", "cut", "7", "513"]),
        1,
        "",
        "lokhazim: cut: refusal 41: a store",
    );
    expect(
        &run(&["find", "b", "e", "7", "512"]),
        1,
        "",
        "b, e: name 7, version 512: refusal 42: neither",
    );
    expect(
        &run(&["add", "cut", "7", "0", "x"]),
        1,
        "",
        "cut: refusal 41: a store",
    );
    let long = "x".repeat(65);
    expect(
        &run(&["add", "b", "7", "0", &long]),
        1,
        "",
        "b: refusal 43: the value",
    );
    expect(
        &run(&["add", "b", "7", "512", "x"]),
        1,
        "",
        "b: refusal 44: the version",
    );
    assert_eq!(fs::read(folder.join("b")).unwrap(), good);
    assert_eq!(fs::read(folder.join("cut")).unwrap(), good[..5]);
    fs::write(folder.join("half"), [&good[..], &[3, 2, 7]].concat()).unwrap();
    expect(&run(&["list", "half"]), 1, "", "half: refusal 41: a store");
    assert_eq!(names(&folder), ["b", "cut", "e", "half"]);
}

#[test]
fn wrong_words_and_files_change_nothing() {
    let folder = folder("settings-words");
    let run = |words: &[&str]| lokhazim(&folder, &[&["settings"], words].concat());
    fs::write(folder.join("b"), "").unwrap();
    let wrong = [
        (["add", "b", "256", "0", "x"], "'256' is no name"),
        (["add", "b", "+1", "0", "x"], "'+1' is no name"),
        (["add", "b", "", "0", "x"], "'' is no name"),
        (["add", "b", "1", "65536", "x"], "'65536' is no version"),
        (["add", "b", "1", "99999999999", "x"], "is no version"),
        (["find", "b", "b", "1", "v2"], "'v2' is no version"),
        (["find", "b", "none", "1", "2"], "none can't be read"),
        (["add", "none", "1", "2", "x"], "none can't be read"),
        (["add", "-", "1", "2", "x"], "name a file"),
    ];
    for (words, said) in wrong {
        expect(&run(&words), 2, "", said);
    }
    for value in ["abc", "0g", "+1"] {
        let words = ["add", "b", "1", "2", value, "--hex"];
        expect(&run(&words), 2, "", "two hexadecimal digits");
    }
    expect(&run(&["list", "none"]), 2, "", "none can't be read");
    expect(&run(&["find", "b"]), 2, "", "is not understood");
    assert_eq!(fs::read(folder.join("b")).unwrap(), b"");
    assert_eq!(names(&folder), ["b"]);
}
