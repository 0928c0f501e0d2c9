//! The whole picture: title, timeline, strip, legend and notes, one below the other.

use crate::draw::escape::{cut, escaped};
use crate::draw::legend::Legend;
use crate::draw::patterns;
use crate::draw::story::{counted, Source, Story, Use};
use crate::draw::strip::Strip;
use crate::draw::svg::{number, Svg};
use crate::draw::timeline::Timeline;

/// The margins at the left and at the right, and the width between them.
const LEFT: f64 = 64.0;
const RIGHT: f64 = 28.0;
const PAGE: f64 = 868.0;
/// The height of a heading, and of a line of notes.
const HEADING: f64 = 30.0;
const NOTE: f64 = 17.0;
/// The most letters of a name in the title.
const NAME: usize = 64;

/// How the parts of a picture look.
const STYLE: &str = "\
.heap{background:#fff}
.heap text{font-family:'DejaVu Sans Mono',Menlo,Consolas,monospace;font-size:11px;fill:#111}
.heap .title{font:bold 18px sans-serif}
.heap .summary,.heap .legend,.heap .note{font:13px sans-serif}
.heap .heading{font:bold 13px sans-serif}
.heap .note{fill:#444}
.heap .mark{text-anchor:middle}
.heap .paper{fill:#fff;fill-opacity:.88}
.heap .offset,.heap .call,.heap .answer{font-size:10px;text-anchor:middle}
.heap .answer{fill:#555}
.heap .level,.heap .upright{font-size:10px;text-anchor:end}
.heap .number{font-size:11px;font-weight:bold;text-anchor:middle;fill:#8c1020}
.heap .page{fill:#fff}
.heap .plot{fill:#fbfbfb;stroke:#999}
.heap .blank{fill:#fff}
.heap .fill{stroke:none}
.heap .header{fill:#808080}
.heap .border{stroke:#222}
.heap .outline{fill:none;stroke:#222;pointer-events:none}
.heap .change{stroke:#222;stroke-dasharray:2 2}
.heap .tick{stroke:#555}
.heap .grid{stroke:#ddd}
.heap .column{fill:#000;fill-opacity:0}
.heap g:hover .column{fill-opacity:.06}
.heap .refused{stroke:#8c1020;stroke-width:1.5px}
.heap .dashed{stroke:#8c1020;stroke-dasharray:5 3;pointer-events:none}
.heap .over{pointer-events:none}
.heap .badge{fill:#fff;stroke:#8c1020;stroke-width:1.5px}
.heap .sample{stroke:#222}
";

/// The picture as a file of its own.
pub fn svg(story: &Story) -> String {
    format!(
        "<?xml version=\"1.0\" encoding=\"UTF-8\"?>\n{}",
        element(story)
    )
}

/// The name and the summary of a story.
pub fn title(story: &Story) -> String {
    format!("{}: {}", cut(&story.name, NAME).0, story.summary())
}

/// The picture as an element.
pub fn element(story: &Story) -> String {
    let mut svg = Svg::default();
    patterns::define(&mut svg, &story.holders(), story.has_quarantined());
    let (width, height) = draw(&mut svg, story);
    let [width, height] = [width, height].map(number);
    let title = escaped(&title(story));
    let body = svg.into_text();
    format!(
        "<svg xmlns=\"http://www.w3.org/2000/svg\" class=\"heap\" role=\"img\" width=\"{width}\" height=\"{height}\" \
         viewBox=\"0 0 {width} {height}\">\n<title>{title}</title>\n<style>\n{STYLE}</style>\n\
         <rect class=\"page\" width=\"{width}\" height=\"{height}\"/>\n{body}</svg>\n"
    )
}

/// Draws everything and gives width and height.
fn draw(svg: &mut Svg, story: &Story) -> (f64, f64) {
    svg.text("title", (20.0, 32.0), &cut(&story.name, NAME).0);
    svg.text("summary", (20.0, 53.0), &sentence(&story.summary()));
    let mut y = 62.0;
    let mut width = PAGE;
    let (mut stretched, mut shortened) = (false, false);
    if story.source == Source::Script {
        heading(svg, y, "Calls from left to right, offsets upward");
        let timeline = Timeline::new(story, (LEFT, y + HEADING), PAGE);
        timeline.draw(svg);
        y += HEADING + timeline.height() + 8.0;
        width = width.max(timeline.width());
        stretched = timeline.scale().stretched;
        shortened = timeline.scale().shortened;
    }
    heading(svg, y, &sentence(&strip_words(story)));
    let strip = Strip::new(story, (LEFT, y + HEADING), PAGE);
    svg.raw(r#"<g stroke-width="1">"#);
    strip.draw(svg);
    svg.raw("</g>");
    y += HEADING + strip.height() + 8.0;
    stretched |= strip.scale().stretched;
    shortened |= strip.scale().shortened;
    let legend = Legend::new(story, PAGE);
    legend.draw(svg, (LEFT, y));
    y += legend.height() + 6.0;
    for note in notes(svg.left_out, stretched, shortened) {
        svg.text("note", (LEFT, y + 12.0), &note);
        y += NOTE;
    }
    (LEFT + width + RIGHT, y + 14.0)
}

/// Writes a heading.
fn heading(svg: &mut Svg, y: f64, words: &str) {
    svg.text("heading", (20.0, y + 18.0), words);
}

/// What the strip shows, in numbers.
fn strip_words(story: &Story) -> String {
    let when = match story.source {
        Source::Script => "the heap after the last call",
        Source::Image(_) => "the heap in the image",
    };
    let count = |is: fn(&Use) -> bool| {
        let parts = story.parts.iter().filter(|part| is(&part.used));
        parts.fold((0, 0), |(count, bytes), part| {
            (count + 1, bytes + part.size)
        })
    };
    let (objects, used) = count(|used| matches!(used, Use::Object { .. }));
    let (free, unused) = count(|used| *used == Use::Free);
    let (waiting, waits) = count(|used| *used == Use::Quarantined);
    let objects = counted(objects, "object");
    let free = counted(free, "free block");
    let mut words = format!("{when}: {objects} in {used} bytes, {free} of {unused}");
    if waiting > 0 {
        let waiting = counted(waiting, "quarantined block");
        words = format!("{words}, {waiting} of {waits}");
    }
    words
}

/// A sentence's first letter as it begins one.
fn sentence(words: &str) -> String {
    let mut letters = words.chars();
    let first = letters.next().map(|letter| letter.to_ascii_uppercase());
    first.into_iter().chain(letters).collect()
}

/// What is said about the picture itself.
fn notes(left_out: usize, stretched: bool, shortened: bool) -> Vec<String> {
    let mut notes = Vec::new();
    let great = if shortened {
        ", great ones smaller"
    } else {
        ""
    };
    if stretched {
        notes.push(format!(
            "Small blocks are drawn larger than to scale{great}; the offsets are exact."
        ));
    }
    if left_out > 0 {
        let labels = counted(left_out, "label");
        let words = "left out or shortened for want of room; on hover each call and each block is told in full.";
        notes.push(format!(
            "{labels} {} {words}",
            if left_out == 1 { "is" } else { "are" }
        ));
    }
    notes
}
