//! Offsets laid out along a line: in proportion, but with a least length for each part.

use std::collections::BTreeMap;

/// A scale from offsets to places on a line.
pub struct Scale {
    places: BTreeMap<usize, f64>,
    /// The length of a byte in the parts that are in proportion.
    pub per_byte: f64,
    /// Whether some part is longer than in proportion.
    pub stretched: bool,
    /// Whether some part is shorter than in proportion.
    pub shortened: bool,
}

impl Scale {
    /// The scale of parts that begin and end at these marks, in rising order, over a line of that
    /// length. A part gets the least length if its share of the line is shorter; where the line has
    /// no room for that, the least length is what leaves three tenths of it to be shared. A part
    /// gets the greatest length if its share is longer; the line is then not used to its end.
    pub fn new(marks: &[usize], line: f64, least: f64, most: f64) -> Scale {
        let sizes: Vec<f64> = marks.windows(2).map(|m| (m[1] - m[0]) as f64).collect();
        let least = least.min(0.7 * line / sizes.len().max(1) as f64);
        let per_byte = per_byte(&sizes, line, least);
        let mut at = 0.0;
        let mut places = BTreeMap::from([(marks.first().copied().unwrap_or(0), 0.0)]);
        for (mark, size) in marks.iter().skip(1).zip(&sizes) {
            at += least.max(per_byte * size).min(most);
            places.insert(*mark, at);
        }
        Scale {
            places,
            per_byte,
            stretched: sizes.iter().any(|size| per_byte * size < least),
            shortened: sizes.iter().any(|size| per_byte * size > most),
        }
    }

    /// Where an offset is.
    pub fn at(&self, offset: usize) -> f64 {
        let before = self.places.range(..=offset).next_back();
        let behind = self.places.range(offset..).next();
        match (before, behind) {
            (Some((a, from)), Some((b, to))) if a < b => {
                from + (to - from) * (offset - a) as f64 / (b - a) as f64
            }
            (Some((_, place)), _) | (None, Some((_, place))) => *place,
            (None, None) => 0.0,
        }
    }
}

/// The length of a byte in the parts that are longer than the least length.
fn per_byte(sizes: &[f64], line: f64, least: f64) -> f64 {
    let mut sorted = sizes.to_vec();
    sorted.sort_by(f64::total_cmp);
    let (mut room, mut bytes) = (line, sorted.iter().sum::<f64>());
    for size in sorted {
        if size * room >= least * bytes {
            break;
        }
        (room, bytes) = (room - least, bytes - size);
    }
    match bytes > 0.0 {
        true => room / bytes,
        false => 0.0,
    }
}

#[cfg(test)]
mod tests {
    use super::*;

    #[test]
    fn parts_are_in_proportion() {
        let scale = Scale::new(&[0, 16, 64], 128.0, 10.0, f64::MAX);
        assert!(!scale.stretched);
        assert_eq!(
            [0, 8, 16, 40, 64].map(|o| scale.at(o)),
            [0.0, 16.0, 32.0, 80.0, 128.0]
        );
    }

    #[test]
    fn small_parts_are_longer() {
        let scale = Scale::new(&[0, 16, 32, 1024], 120.0, 10.0, f64::MAX);
        assert!(scale.stretched);
        assert_eq!(
            [0, 16, 32, 1024].map(|o| scale.at(o)),
            [0.0, 10.0, 20.0, 120.0]
        );
    }

    #[test]
    fn great_parts_are_cut() {
        let scale = Scale::new(&[0, 16, 1024], 128.0, 10.0, 50.0);
        assert!(scale.stretched && scale.shortened);
        assert_eq!([0, 16, 1024].map(|o| scale.at(o)), [0.0, 10.0, 60.0]);
    }

    #[test]
    fn a_line_without_room_shortens_the_least() {
        let marks: Vec<usize> = (0..=100).map(|mark| mark * 16).collect();
        let scale = Scale::new(&marks, 100.0, 50.0, f64::MAX);
        assert!((scale.at(1600) - 100.0).abs() < 1e-9);
        assert!((scale.at(16) - 1.0).abs() < 1e-9);
    }

    #[test]
    fn no_parts_are_no_failure() {
        assert_eq!(Scale::new(&[], 100.0, 5.0, 9.0).at(7), 0.0);
        assert_eq!(Scale::new(&[3], 100.0, 5.0, 9.0).at(7), 0.0);
    }
}
