//! A page with the picture and a table.

use std::fmt::Write;

use crate::draw::escape::escaped;
use crate::draw::page::{element, title};
use crate::draw::story::{Source, Step, Story, Use};

/// How the page looks.
const STYLE: &str = "\
body{font-family:sans-serif;margin:1.5em;color:#111;background:#fff}
div{overflow-x:auto}
table{border-collapse:collapse;margin-top:1em;font-size:14px}
th,td{border:1px solid #bbb;padding:.25em .7em;text-align:left;vertical-align:top}
th{background:#eee}
td.number{text-align:right}
td.words{font:13px monospace;overflow-wrap:anywhere}
tr.refused td{background:#fbeaec}
tbody tr:hover td{background:#e9f0fa}
";

/// A cell of a table.
enum Cell {
    Number(String),
    Words(String),
    Text(String),
}

impl Cell {
    /// The cell as an element.
    fn element(&self) -> String {
        match self {
            Cell::Number(text) => format!(r#"<td class="number">{}</td>"#, escaped(text)),
            Cell::Words(text) => format!(r#"<td class="words">{}</td>"#, escaped(text)),
            Cell::Text(text) => format!("<td>{}</td>", escaped(text)),
        }
    }
}

/// The page.
pub fn html(story: &Story) -> String {
    let title = escaped(&title(story));
    let picture = element(story);
    let table = match story.source {
        Source::Script => calls(story),
        Source::Image(_) => blocks(story),
    };
    format!(
        "<!DOCTYPE html>\n<html lang=\"en\">\n<head>\n<meta charset=\"utf-8\"/>\n<title>{title}</title>\n\
         <style>\n{STYLE}</style>\n</head>\n<body>\n<div>\n{picture}</div>\n{table}</body>\n</html>\n"
    )
}

/// A table of rows that each have words on hover.
fn table(heads: &[&str], rows: impl Iterator<Item = (String, bool, Vec<Cell>)>) -> String {
    let mut text = String::from("<table>\n<thead><tr>");
    for head in heads {
        let _ = write!(text, "<th>{}</th>", escaped(head));
    }
    text.push_str("</tr></thead>\n<tbody>\n");
    for (hover, refused, cells) in rows {
        let class = if refused { r#" class="refused""# } else { "" };
        let _ = write!(text, r#"<tr{class} title="{}">"#, escaped(&hover));
        cells.iter().for_each(|cell| text.push_str(&cell.element()));
        text.push_str("</tr>\n");
    }
    text + "</tbody>\n</table>\n"
}

/// The table of a script's calls.
fn calls(story: &Story) -> String {
    let heads = [
        "line",
        "call",
        "answer",
        "live objects",
        "remaining of its quota",
    ];
    let row = |step: &Step| {
        let answer = match step.refusal {
            Some(refusal) => Cell::Text(refusal.to_string()),
            None => Cell::Words(step.answer.clone()),
        };
        let cells = vec![
            Cell::Number(step.line.to_string()),
            Cell::Words(step.words.clone()),
            answer,
            Cell::Number(step.live.to_string()),
            Cell::Number(
                step.remaining
                    .map(|left| left.to_string())
                    .unwrap_or_default(),
            ),
        ];
        (step.hover(), step.refusal.is_some(), cells)
    };
    table(&heads, story.steps.iter().map(row))
}

/// The table of an image's blocks.
fn blocks(story: &Story) -> String {
    let heads = ["offset", "size", "object", "held by"];
    let rows = story.parts.iter().map(|part| {
        let (object, holders) = match &part.used {
            Use::Free => ("free".to_owned(), String::new()),
            Use::Quarantined => ("quarantined".to_owned(), String::new()),
            Use::Object { serial, holders } => {
                let holders: Vec<String> = holders.iter().map(|h| h.label()).collect();
                let handle = format!("{} {} {serial}", part.offset + 8, part.size - 8);
                (handle, holders.join(", "))
            }
        };
        let cells = vec![
            Cell::Number(part.offset.to_string()),
            Cell::Number(part.size.to_string()),
            Cell::Words(object),
            Cell::Text(holders),
        ];
        (part.words(), false, cells)
    });
    table(&heads, rows)
}
