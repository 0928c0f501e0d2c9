//! What is read, what is refused, and where.

use super::*;

/// A string value at a place.
fn text(line: usize, column: usize, text: &str) -> Value {
    Value {
        place: Place { line, column },
        kind: Kind::Text(text.to_owned()),
    }
}

/// The place and the words of what is wrong with a text.
fn wrong(text: &str) -> (usize, usize, &'static str) {
    let Malformed { place, what } = read(text.as_bytes()).unwrap_err();
    (place.line, place.column, what)
}

#[test]
fn values_keep_their_places() {
    let read = read(b" {\n  \"a\": [\"x\", {\"b\" : \"y\"}],\r\n\t\"c\":null }\n").unwrap();
    assert_eq!(read.place, Place { line: 1, column: 2 });
    let Some(Kind::List(list)) = read.member("a").map(|value| &value.kind) else {
        panic!("a is a list");
    };
    assert_eq!(list[0], text(2, 9, "x"));
    assert_eq!(list[1].member("b"), Some(&text(2, 21, "y")));
    assert_eq!(read.member("c").map(|c| &c.kind), Some(&Kind::Other));
    assert_eq!((read.member("d"), list[0].member("b")), (None, None));
    assert_eq!((list[0].text(), list[1].text()), (Some("x"), None));
}

#[test]
fn every_kind_of_value() {
    for good in [
        "0", "-0", "12", "-3.25", "1e9", "2E+08", "0.5e-1", "true", "false", "null", "\"\"", "[]",
        "{}", "[ ]", "{ }", "[1,2]", "[[[]]]", "{\"\":0}",
    ] {
        assert!(read(good.as_bytes()).is_ok(), "{good}");
    }
    for bad in [
        "",
        " ",
        "01",
        "+1",
        "-",
        ".5",
        "1.",
        "1e",
        "1e+",
        "tru",
        "nul",
        "True",
        "'x'",
        "[1,]",
        "[,1]",
        "[1 2]",
        "[",
        "{",
        "{1:2}",
        "{\"a\"}",
        "{\"a\":}",
        "{\"a\":1,}",
        "{\"a\" 1}",
        "]",
        "\"",
        "\"\\",
        "\"\\x\"",
        "\"\\u12\"",
        "\"\\ud800\"",
        "\"\\ud800\\u0041\"",
        "\"\\udc00\"",
        "\"a\nb\"",
        "1 2",
        "{}{}",
        "{},",
    ] {
        assert!(read(bad.as_bytes()).is_err(), "{bad}");
    }
}

#[test]
fn escapes() {
    let read = read(br#""\" \\ \/ \b\f\n\r\t \u0041\u00e4 \ud83d\ude00 \uFFFF""#).unwrap();
    let expected = "\" \\ / \u{8}\u{c}\n\r\t A\u{e4} \u{1f600} \u{ffff}";
    assert_eq!(read.text(), Some(expected));
}

#[test]
fn what_is_wrong_is_named_with_its_place() {
    assert_eq!(
        wrong("{\n  \"a\": 1\n  \"b\": 2\n}"),
        (3, 3, "a comma or the end of the object has to stand here")
    );
    assert_eq!(wrong("[1,\n 2,\n]"), (3, 1, "a value has to stand here"));
    assert_eq!(
        wrong("{\"a\": \"x"),
        (1, 9, "the text ends inside a string")
    );
    assert_eq!(
        wrong("{\"a\":"),
        (1, 6, "the text ends where a value has to stand")
    );
    assert_eq!(
        wrong("{\"ä\": 1, \"ä\": 2}"),
        (1, 10, "this name stands twice in its object")
    );
    assert_eq!(wrong("[\"\\q\"]"), (1, 3, "this escape is none of JSON's"));
    assert_eq!(wrong("{},\n"), (1, 3, "something stands behind the end"));
    let Malformed { place, what } = read(b"[\"\xc3\xa4\",\n \"\xff\"]").unwrap_err();
    assert_eq!(
        (place, what),
        (Place { line: 2, column: 3 }, "these bytes are not UTF-8")
    );
}

#[test]
fn depth_has_an_end() {
    let nested = |depth: usize| format!("{}{}", "[".repeat(depth), "]".repeat(depth));
    assert!(read(nested(101).as_bytes()).is_ok());
    assert!(wrong(&nested(102)).2.contains("too deep"));
    assert!(wrong(&"[".repeat(1_000_000)).2.contains("too deep"));
}
