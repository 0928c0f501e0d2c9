//! The pictures of the documents are what the command draws today, and a browser shows them.

#[path = "support/png.rs"]
mod png;
#[allow(dead_code)]
mod support;

use std::collections::BTreeMap;
use std::env;
use std::fs;
use std::io::{self, Write};
use std::path::{Path, PathBuf};
use std::process::{Command, Stdio};
use std::thread::sleep;
use std::time::{Duration, Instant};

use png::Picture;
use support::{expect, folder, lokhazim};

/// A file of the repository.
fn repository(name: &str) -> PathBuf {
    Path::new(env!("CARGO_MANIFEST_DIR")).join("..").join(name)
}

/// Draws the pictures of docs/pictures/ into a folder; gives their names and how each was drawn.
fn draw_all(folder: &Path) -> [(&'static str, &'static str); 3] {
    let file = |name: &str| repository(name).to_string_lossy().into_owned();
    let (valve, quarantine) = (
        file("examples/valve.replay"),
        file("examples/quarantine.script"),
    );
    let saved = lokhazim(folder, &["image", "save", &valve, "valve.image"]);
    expect(&saved, 0, "ok 5120\n", "");
    for words in [
        &["draw", &valve, "-o", "valve.svg"][..],
        &["draw", "--quarantine", &quarantine, "-o", "quarantine.svg"],
        &["draw", "valve.image", "-o", "image.svg"],
    ] {
        assert!(lokhazim(folder, words).status.success(), "{words:?}");
    }
    [
        ("valve.svg", "lokhazim draw examples/valve.replay -o docs/pictures/valve.svg"),
        (
            "quarantine.svg",
            "lokhazim draw --quarantine examples/quarantine.script -o docs/pictures/quarantine.svg",
        ),
        (
            "image.svg",
            "lokhazim image save examples/valve.replay valve.image; lokhazim draw valve.image -o docs/pictures/image.svg",
        ),
    ]
}

#[test]
fn the_pictures_of_the_documents_are_up_to_date() {
    let folder = folder("pictures");
    let documents = ["README.md", "docs/RULES.md"];
    let documents = documents.map(|name| fs::read_to_string(repository(name)).unwrap());
    for (name, how) in draw_all(&folder) {
        let kept = fs::read(repository("docs/pictures").join(name)).unwrap_or_default();
        let same = kept == fs::read(folder.join(name)).unwrap();
        assert!(
            same,
            "docs/pictures/{name} is another picture; draw it anew: {how}"
        );
        let used = documents
            .iter()
            .any(|text| text.contains(&format!("pictures/{name})")));
        assert!(used, "no document shows docs/pictures/{name}");
    }
    let kept = fs::read_dir(repository("docs/pictures")).unwrap();
    assert_eq!(kept.count(), 3);
}

/// Whether a file is a browser that can be started; some systems have a note in its place.
fn starts(file: &Path) -> bool {
    let mut command = Command::new(file);
    let command = command.arg("--version").stdin(Stdio::null());
    command.output().is_ok_and(|run| run.status.success())
}

/// The browser that is installed: the one that LOKHAZIM_BROWSER names, else one on the path.
fn browser() -> Option<PathBuf> {
    if let Some(named) = env::var_os("LOKHAZIM_BROWSER") {
        return Some(named.into());
    }
    let path = env::var_os("PATH").unwrap_or_default();
    let folders: Vec<PathBuf> = env::split_paths(&path).collect();
    let names = [
        "chromium",
        "chromium-browser",
        "google-chrome",
        "google-chrome-stable",
    ];
    let mut files = names
        .iter()
        .flat_map(|name| folders.iter().map(move |f| f.join(name)));
    files.find(|file| file.is_file() && starts(file))
}

/// Has a browser open a file of a folder and takes a picture of its window, if it can.
fn shot(
    browser: &Path,
    folder: &Path,
    name: &str,
    (width, height): (usize, usize),
) -> Option<Picture> {
    let file = folder.join(format!("{name}.png"));
    let mut command = Command::new(browser);
    command
        .args([
            "--headless",
            "--no-sandbox",
            "--disable-gpu",
            "--hide-scrollbars",
        ])
        .args(["--force-device-scale-factor=1", "--no-first-run"])
        .arg(format!(
            "--user-data-dir={}",
            folder.join("profile").display()
        ))
        .arg(format!("--window-size={width},{height}"))
        .arg(format!("--screenshot={}", file.display()))
        .arg(format!("file://{}", folder.join(name).display()))
        .stdout(Stdio::null())
        .stderr(Stdio::null());
    let mut child = command.spawn().ok()?;
    let begun = Instant::now();
    while child.try_wait().ok()?.is_none() {
        if begun.elapsed() > Duration::from_secs(300) {
            let _ = child.kill();
            let _ = child.wait();
            return None;
        }
        sleep(Duration::from_millis(20));
    }
    Some(Picture::read(&fs::read(file).ok()?))
}

/// The same of a browser that is known to take pictures here.
fn screenshot(browser: &Path, folder: &Path, name: &str, size: (usize, usize)) -> Picture {
    let picture = shot(browser, folder, name, size);
    picture.unwrap_or_else(|| panic!("the browser took no picture of {name} in five minutes"))
}

/// Whether a browser takes a picture of an empty page here: some machines have not what it needs.
fn takes_pictures(browser: &Path, folder: &Path) -> bool {
    let page = folder.join("empty.html");
    fs::write(page, "<!DOCTYPE html><title>empty</title>").expect("a page can be written");
    shot(browser, folder, "empty.html", (100, 100)).is_some()
}

/// Says on standard error, past the test program, that the browser's test was left out.
fn skip(why: &str) {
    let said = format!("skipped: a_browser_shows_the_pictures: {why}\n");
    let _ = io::stderr().write_all(said.as_bytes());
}

/// How often each colour is in a picture.
fn colours(picture: &Picture) -> BTreeMap<[u8; 3], usize> {
    let mut colours = BTreeMap::new();
    for y in 0..picture.height {
        for x in 0..picture.width {
            *colours.entry(picture.pixel(x, y)).or_insert(0) += 1;
        }
    }
    colours
}

#[test]
fn a_browser_shows_the_pictures() {
    let Some(browser) = browser() else {
        return skip("no chromium or chrome is installed");
    };
    let folder = folder("browser");
    if !takes_pictures(&browser, &folder) {
        return skip("the browser takes no picture of an empty page on this machine");
    }
    draw_all(&folder);
    let html = ["draw", "valve.image", "-o", "image.html"];
    assert!(lokhazim(&folder, &html).status.success());

    let valve = screenshot(&browser, &folder, "valve.svg", (960, 600));
    assert_eq!((valve.width, valve.height), (960, 600));
    let seen = colours(&valve);
    // The grounds of quotas 0, 1 and 2, headers, and the marks of refused calls.
    for colour in [
        [0xd3, 0xe4, 0xf8],
        [0xfd, 0xe3, 0xc8],
        [0xd6, 0xee, 0xd3],
        [0x80, 0x80, 0x80],
        [0x8c, 0x10, 0x20],
    ] {
        assert!(
            seen.get(&colour).is_some_and(|count| *count > 20),
            "{colour:x?}"
        );
    }
    // The first block's header begins at the strip's left end, and the heap's end is free.
    assert_eq!(valve.pixel(70, 450), [0x80; 3]);
    assert_eq!(valve.pixel(900, 450), [0xff; 3]);
    assert_eq!(valve.pixel(2, 2), [0xff; 3]);

    let waiting = screenshot(&browser, &folder, "quarantine.svg", (960, 660));
    assert!(colours(&waiting)
        .get(&[0xe4; 3])
        .is_some_and(|count| *count > 1_000));

    // The page has the same picture, and below it the table with its grey head.
    let image = screenshot(&browser, &folder, "image.svg", (960, 300));
    let page = screenshot(&browser, &folder, "image.html", (1020, 600));
    let orange = [0xfd, 0xe3, 0xc8];
    let counts = [&image, &page].map(|picture| colours(picture).get(&orange).copied());
    assert!(counts[0] == counts[1] && counts[0].is_some_and(|count| count > 1_000));
    assert!(colours(&page)
        .get(&[0xee; 3])
        .is_some_and(|count| *count > 1_000));
    // What the browser keeps of itself is of no use to anybody.
    let _ = fs::remove_dir_all(folder.join("profile"));
}
