//! The C programs: the examples tell their stories, every field goes through the library and back, no
//! call changes what it may not, and the headers ask for no C library, warn and check pointers.

#[allow(dead_code)]
mod support;

use support::{compile, read_headers, repository, run, warnings};

/// The headers, by what follows `lokhazim`.
const HEADERS: [&str; 6] = [
    "",
    "_image",
    "_queue",
    "_report",
    "_settings",
    "_statistics",
];

#[test]
fn the_valve_example_tells_its_story() {
    let told = run(&compile("examples/valve.c", "-O2"), &[], b"");
    let story = std::fs::read(repository("examples/valve.out")).expect("the story is there");
    assert_eq!(
        String::from_utf8_lossy(&told),
        String::from_utf8_lossy(&story)
    );
}

#[test]
fn the_gateway_example_tells_its_story() {
    let told = run(&compile("examples/gateway.c", "-O2"), &[], b"");
    let story = std::fs::read(repository("examples/gateway.out")).expect("the story is there");
    assert_eq!(
        String::from_utf8_lossy(&told),
        String::from_utf8_lossy(&story)
    );
}

#[test]
fn a_queue_goes_from_c_and_back() {
    for level in ["-O0", "-O2"] {
        run(&compile("bindings/rust/tests/c/queue.c", level), &[], b"");
    }
}

#[test]
fn an_image_goes_from_c_and_back() {
    for level in ["-O0", "-O2"] {
        run(&compile("bindings/rust/tests/c/images.c", level), &[], b"");
    }
}

#[test]
fn a_report_goes_from_c_and_back() {
    for level in ["-O0", "-O2"] {
        run(&compile("bindings/rust/tests/c/report.c", level), &[], b"");
    }
}

#[test]
fn statistics_go_to_c() {
    for level in ["-O0", "-O2"] {
        run(
            &compile("bindings/rust/tests/c/statistics.c", level),
            &[],
            b"",
        );
    }
}

#[test]
fn settings_go_from_c_and_back() {
    for level in ["-O0", "-O2"] {
        run(
            &compile("bindings/rust/tests/c/settings.c", level),
            &[],
            b"",
        );
    }
}

#[test]
fn released_blocks_wait_for_a_sweep_from_c() {
    for level in ["-O0", "-O2"] {
        let program = compile("bindings/rust/tests/c/quarantine.c", level);
        run(&program, &[], b"");
    }
}

#[test]
fn each_edition_rounds_by_its_table_from_c() {
    for level in ["-O0", "-O2"] {
        let program = compile("bindings/rust/tests/c/editions.c", level);
        run(&program, &[], b"");
    }
}

#[test]
fn every_field_goes_through_the_library_from_c() {
    for level in ["-O0", "-O2"] {
        run(&compile("bindings/rust/tests/c/library.c", level), &[], b"");
    }
}

#[test]
fn calls_change_what_they_may_from_c() {
    for level in ["-O0", "-O2"] {
        run(&compile("bindings/rust/tests/c/calls.c", level), &[], b"");
    }
}

#[test]
fn pointers_are_checked_from_c() {
    for level in ["-O0", "-O2"] {
        let program = compile("bindings/rust/tests/c/pointers.c", level);
        run(&program, &[], b"");
    }
}

#[test]
fn misuse_gives_warnings() {
    let said = ["cc", "gcc", "clang"].map(|compiler| {
        let said = warnings(compiler, "bindings/rust/tests/c/misused.c")?;
        assert_eq!(said.matches("[-Wenum-conversion]").count(), 2, "{said}");
        assert_eq!(said.matches("[-Wunused-result]").count(), 2, "{said}");
        Some(())
    });
    assert!(said[0].is_some(), "the command 'cc' is missing");
}

#[test]
fn the_headers_need_no_c_library() {
    read_headers(&HEADERS, &[]);
}

#[test]
fn a_length_may_have_32_bits() {
    read_headers(&HEADERS, &["-m32"]);
}
