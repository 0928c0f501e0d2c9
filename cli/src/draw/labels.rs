//! What is written below the columns of a timeline: each call's words, as far as there is room.

use crate::draw::escape::cut;
use crate::draw::story::Step;
use crate::draw::svg::{width, Svg};

/// The size of a letter and the distance of two lines.
const SIZE: f64 = 10.0;
const LINE: f64 = 13.0;
/// The most lines of a flat label and the most letters of an upright one.
const LINES: usize = 5;
const LETTERS: usize = 30;
/// The narrowest column of a flat label, of an upright one, and the distance of two numbers.
const FLAT: f64 = 58.0;
const UPRIGHT: f64 = 12.0;
const APART: f64 = 40.0;

/// How the calls are labelled.
#[derive(Clone, Copy, Debug, PartialEq, Eq)]
enum Way {
    /// Words and answer, each in as many lines as it needs, up to so many in all.
    Flat(usize),
    /// The words, read from below, of at most so many letters.
    Upright(usize),
    /// The line's number below every so many columns.
    Numbers(usize),
}

/// The labels of a timeline's calls.
pub struct CallLabels<'s> {
    steps: &'s [Step],
    column: f64,
    way: Way,
}

/// The words of a call in the picture: of an opening, those without its grants.
fn short(step: &Step) -> String {
    let words: Vec<&str> = step.words.split(' ').collect();
    match words.as_slice() {
        ["open", length, ..] => format!("open {length}"),
        words => words.join(" "),
    }
}

/// The words in lines of at most so many letters.
fn wrapped(words: &str, letters: usize) -> Vec<String> {
    let mut lines: Vec<String> = Vec::new();
    for word in words.split(' ') {
        match lines.last_mut() {
            Some(line) if line.len() + 1 + word.len() <= letters => {
                line.push(' ');
                line.push_str(word);
            }
            _ => lines.push(word.to_owned()),
        }
    }
    lines
}

/// How many letters have room in a column.
fn letters(column: f64) -> usize {
    ((column - 11.0) / width("0", SIZE)).max(1.0) as usize
}

/// The lines of a call's flat label: its words, those behind the quota in lines of their own where
/// one line has no room, and then its answer.
fn flat(step: &Step, column: f64) -> (Vec<String>, Vec<String>) {
    let letters = letters(column);
    let words = short(step);
    let parts: Vec<&str> = words.splitn(3, ' ').collect();
    let lines = match parts.as_slice() {
        [word, quota, rest] if words.len() > letters => {
            let mut lines = wrapped(&format!("{word} {quota}"), letters);
            lines.extend(wrapped(rest, letters));
            lines
        }
        _ => wrapped(&words, letters),
    };
    (lines, wrapped(&step.answer, letters))
}

impl<'s> CallLabels<'s> {
    /// The labels of calls in columns of this width.
    pub fn new(steps: &'s [Step], column: f64) -> CallLabels<'s> {
        let (mut lines, mut fits) = (0, true);
        for (words, answer) in steps.iter().map(|step| flat(step, column)) {
            lines = lines.max(words.len() + answer.len());
            let mut all = words.iter().chain(&answer);
            fits &= all.all(|line| width(line, SIZE) + 4.0 <= column);
        }
        let longest = steps.iter().map(|step| short(step).len()).max();
        let way = if column >= FLAT && lines <= LINES && fits {
            Way::Flat(lines)
        } else if column >= UPRIGHT {
            Way::Upright(longest.unwrap_or(0).min(LETTERS))
        } else {
            Way::Numbers(every(column))
        };
        CallLabels { steps, column, way }
    }

    /// Their height.
    pub fn height(&self) -> f64 {
        match self.way {
            Way::Flat(lines) => lines as f64 * LINE + 8.0,
            Way::Upright(letters) => letters as f64 * width("0", SIZE) + 12.0,
            Way::Numbers(_) => LINE + 8.0,
        }
    }

    /// Writes the label of a call, whose tick ends at a place.
    pub fn draw(&self, svg: &mut Svg, place: usize, (x, y): (f64, f64)) {
        let Some(step) = self.steps.get(place) else {
            return;
        };
        match self.way {
            Way::Flat(_) => {
                let (words, answer) = flat(step, self.column);
                let classes = [("call", words), ("answer", answer)];
                let lines = classes
                    .iter()
                    .flat_map(|(class, lines)| lines.iter().map(move |line| (class, line)));
                for (row, (class, line)) in (1..).zip(lines) {
                    svg.text(class, (x, y + f64::from(row) * LINE), line);
                }
            }
            Way::Upright(_) => {
                let (words, shorter) = cut(&short(step), LETTERS);
                svg.left_out += usize::from(shorter);
                svg.upright("upright", (x + 0.35 * SIZE, y + 4.0), &words);
            }
            Way::Numbers(every) => match place % every {
                0 => svg.text("call", (x, y + LINE), &step.line.to_string()),
                _ => svg.left_out += 1,
            },
        }
    }
}

/// Below every how many columns of this width a number has room: 1, 2 or 5, or that with zeros.
fn every(column: f64) -> usize {
    let mut tens = 1;
    loop {
        for step in [1, 2, 5].map(|digit| digit * tens) {
            if step as f64 * column >= APART || step >= 50_000 {
                return step;
            }
        }
        tens *= 10;
    }
}

#[cfg(test)]
mod tests {
    use super::*;

    #[test]
    fn numbers_are_apart() {
        assert_eq!(
            [50.0, 20.0, 8.0, 1.0, 0.1, 0.0].map(every),
            [1, 2, 5, 50, 500, 50_000]
        );
    }

    #[test]
    fn words_are_wrapped_between_words() {
        assert_eq!(wrapped("claim 2 8 40 1", 8), ["claim 2", "8 40 1"]);
        assert_eq!(wrapped("realloc", 3), ["realloc"]);
    }
}
