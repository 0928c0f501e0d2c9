//! Tables as Markdown, padded so that they can be read where they are printed and pasted into a document.

/// Writes a table; the first column is text, the others numbers.
pub fn table(heads: &[&str], rows: &[Vec<String>]) -> String {
    let lines = [heads.iter().map(ToString::to_string).collect()];
    let all: Vec<&Vec<String>> = lines.iter().chain(rows).collect();
    let widths: Vec<usize> = (0..heads.len())
        .map(|column| all.iter().map(|row| row[column].chars().count()).max())
        .map(|width| width.unwrap_or(0))
        .collect();
    let mut text = line(&lines[0], &widths);
    text.push_str(&rule(&widths));
    for row in rows {
        text.push_str(&line(row, &widths));
    }
    text
}

/// Writes a row.
fn line(cells: &[String], widths: &[usize]) -> String {
    let padded = cells.iter().zip(widths).enumerate();
    let cells = padded.map(|(place, (cell, width))| match place {
        0 => format!("| {cell:<width$} "),
        _ => format!("| {cell:>width$} "),
    });
    cells.collect::<String>() + "|\n"
}

/// Writes the line below the heads.
fn rule(widths: &[usize]) -> String {
    let cells = widths.iter().enumerate().map(|(place, width)| match place {
        0 => format!("|{}", "-".repeat(width + 2)),
        _ => format!("|{}:", "-".repeat(width + 1)),
    });
    cells.collect::<String>() + "|\n"
}

/// Writes a whole number with a comma before each three digits.
pub fn grouped(number: f64) -> String {
    let digits = format!("{number:.0}");
    let mut text = String::new();
    for (place, digit) in digits.chars().enumerate() {
        if place > 0 && (digits.len() - place) % 3 == 0 {
            text.push(',');
        }
        text.push(digit);
    }
    text
}

#[cfg(test)]
mod tests {
    use super::*;

    #[test]
    fn columns_are_as_wide_as_their_widest_cell() {
        let rows = [vec!["a".to_string(), "1,000".to_string()]];
        let expected = "| call | n     |\n".replace("n    ", "    n");
        let text = table(&["call", "n"], &rows);
        assert_eq!(text, expected + "|------|------:|\n| a    | 1,000 |\n");
    }

    #[test]
    fn three_digits_stand_together() {
        assert_eq!(
            [7.0, 999.6, 1_234_567.0].map(grouped),
            ["7", "1,000", "1,234,567"]
        );
    }
}
