//! The rules of the rule book, and what cites them.

use std::collections::BTreeSet;

/// A rule: the number of its section, and its own.
#[derive(Clone, Copy, Debug, PartialEq, Eq, PartialOrd, Ord)]
pub struct Rule(pub u32, pub u32);

impl Rule {
    pub fn read(text: &str) -> Option<Rule> {
        let (section, number) = text.trim().split_once('.')?;
        Some(Rule(section.parse().ok()?, number.parse().ok()?))
    }
}

impl std::fmt::Display for Rule {
    fn fmt(&self, out: &mut std::fmt::Formatter) -> std::fmt::Result {
        write!(out, "{}.{}", self.0, self.1)
    }
}

/// The rules of a rule book, in its order: each begins a line as `- **5.1**`.
pub fn of_book(book: &str) -> Vec<Rule> {
    let numbers = book
        .lines()
        .filter_map(|line| line.strip_prefix("- **")?.split_once("**"));
    numbers
        .filter_map(|(number, _)| Rule::read(number))
        .collect()
}

/// The rules of a list, as `5.1, 5.3 to 5.6`; what is no list of rules is given back.
pub fn listed(text: &str) -> Result<Vec<Rule>, String> {
    let mut all = Vec::new();
    for part in text.split(',') {
        let (from, to) = part.split_once(" to ").unwrap_or((part, part));
        let ends = Rule::read(from).zip(Rule::read(to));
        let (from, to) = ends.ok_or_else(|| part.trim().to_string())?;
        if from.0 != to.0 || from.1 > to.1 {
            return Err(part.trim().to_string());
        }
        all.extend((from.1..=to.1).map(|number| Rule(from.0, number)));
    }
    Ok(all)
}

/// The rules that a line of any text cites: behind the word `rule` or `rules`, with commas, `and` or `to` between.
pub fn cited(line: &str) -> Vec<Rule> {
    let mut found = Vec::new();
    let mut words = line.split_whitespace().peekable();
    while let Some(word) = words.next() {
        if !matches!(
            word.trim_start_matches(|c: char| !c.is_alphanumeric()),
            "rule" | "rules"
        ) {
            continue;
        }
        while let Some(next) = words.peek() {
            let number: String = next
                .chars()
                .take_while(|c| c.is_ascii_digit() || *c == '.')
                .collect();
            let behind = &next[number.len()..];
            let Some(rule) = Rule::read(number.trim_end_matches('.')) else {
                break;
            };
            found.push(rule);
            words.next();
            let joined = behind == "," || matches!(words.peek(), Some(&("and" | "to")));
            if behind.is_empty() && joined {
                words.next();
            }
            if !joined {
                break;
            }
        }
    }
    found
}

/// The rules that are cited and are in no book.
pub fn unknown(line: &str, book: &BTreeSet<Rule>) -> Vec<Rule> {
    cited(line)
        .into_iter()
        .filter(|rule| !book.contains(rule))
        .collect()
}

#[cfg(test)]
mod tests {
    use super::*;

    #[test]
    fn the_rules_of_a_book() {
        assert_eq!(
            of_book("# 5\n\n- **5.1** A.\n- **5.10** B.\ntext **5.2**\n"),
            [Rule(5, 1), Rule(5, 10)]
        );
    }

    #[test]
    fn a_list_of_rules() {
        assert_eq!(
            listed("5.1, 5.3 to 5.5"),
            Ok(vec![Rule(5, 1), Rule(5, 3), Rule(5, 4), Rule(5, 5)])
        );
        assert_eq!(listed("5.5 to 5.3"), Err("5.5 to 5.3".to_string()));
        assert_eq!(listed("5.1, chosen"), Err("chosen".to_string()));
    }

    #[test]
    fn citations_in_a_text() {
        assert_eq!(
            cited("-- rules 8.9 and 8.10: what a quota pays (rule 7.1)"),
            [Rule(8, 9), Rule(8, 10), Rule(7, 1)]
        );
        assert_eq!(
            cited("// Rules 5.1 to 5.8; the rule 5.9, 5.10 too"),
            [Rule(5, 9), Rule(5, 10)]
        );
        assert_eq!(cited("the rules of version 0.6.0"), []);
    }
}
