//! How holders are told apart: a hatch and a colour for each quota, so that both a coloured and a grey
//! picture can be read.

use std::collections::BTreeSet;
use std::fmt::Write;

use crate::draw::story::{Holder, Part, Use};
use crate::draw::svg::{Area, Svg, LABEL};

/// The ground and the lines of a hatch.
const COLOURS: [(&str, &str); 8] = [
    ("#d3e4f8", "#1f4e86"),
    ("#fde3c8", "#a5540a"),
    ("#d6eed3", "#2b6b2b"),
    ("#eadcf5", "#5b3a8c"),
    ("#f9d9dd", "#9c2335"),
    ("#ece0d2", "#6b4a2b"),
    ("#d0eeed", "#146a6a"),
    ("#f6f0c0", "#6f6000"),
];

/// The lines of a hatch in a tile of 8 by 8.
const HATCHES: [&str; 8] = [
    r#"<path d="M-2 2L2 -2M0 8L8 0M6 10L10 6"/>"#,
    r#"<path d="M0 4H8"/>"#,
    r#"<circle cx="2" cy="2" r="0.9"/><circle cx="6" cy="6" r="0.9"/>"#,
    r#"<path d="M-2 6L2 10M0 0L8 8M6 -2L10 2"/>"#,
    r#"<path d="M4 0V8"/>"#,
    r#"<path d="M0 2H4M4 6H8"/>"#,
    r#"<path fill="none" d="M0 6L4 2L8 6"/>"#,
    r#"<circle fill="none" cx="4" cy="4" r="2"/>"#,
];

/// How the hatches of quotas 0 to 7, 8 to 15, 16 to 23 and 24 to 31 differ.
const SIZES: [&str; 4] = [
    "",
    r#" patternTransform="scale(1.7)""#,
    r#" patternTransform="scale(0.65)""#,
    r#" patternTransform="rotate(27) scale(1.2)""#,
];

/// Adds the patterns of these quotas and of quarantined blocks.
pub fn define(svg: &mut Svg, quotas: &BTreeSet<u8>, quarantined: bool) {
    svg.raw("<defs>");
    for quota in quotas.iter().map(|quota| usize::from(*quota)) {
        let (ground, line) = COLOURS[quota % COLOURS.len()];
        let hatch = HATCHES[quota % HATCHES.len()];
        let size = SIZES[quota / HATCHES.len() % SIZES.len()];
        let mut text = pattern(&format!("q{quota}"), size, ground);
        let _ = write!(
            text,
            r#"<g stroke="{line}" fill="{line}">{hatch}</g></pattern>"#
        );
        svg.raw(&text);
    }
    if quarantined {
        let lines = r##"<path stroke="#444" d="M0 0L8 8M0 8L8 0"/></pattern>"##;
        svg.raw(&(pattern("waits", "", "#e4e4e4") + lines));
    }
    svg.raw("</defs>");
}

/// The beginning of a pattern: its name and its ground.
fn pattern(name: &str, more: &str, ground: &str) -> String {
    format!(
        r#"<pattern id="{name}" width="8" height="8" patternUnits="userSpaceOnUse"{more}><rect width="8" height="8" fill="{ground}"/>"#
    )
}

/// The attribute that fills with a quota's pattern.
pub fn of_quota(quota: u8) -> String {
    format!(r#" fill="url(#q{quota})""#)
}

/// The attribute that fills with the pattern of quarantined blocks.
pub const WAITS: &str = r#" fill="url(#waits)""#;

/// Fills an area as a part is used: a band for each holder, the lowest number below.
pub fn fill(svg: &mut Svg, area: Area, part: &Part) {
    match &part.used {
        Use::Free => {}
        Use::Quarantined => svg.rect("fill", area, WAITS),
        Use::Object { holders, .. } => {
            for (place, holder) in holders.iter().rev().enumerate() {
                let band = area.band(place, holders.len());
                svg.rect("fill", band, &of_quota(holder.quota));
            }
        }
    }
}

/// Writes the labels of holders, each on its band; where the bands are too low for that, those of
/// all or their number in the middle.
pub fn label(
    svg: &mut Svg,
    area: Area,
    holders: &[Holder],
    labels: impl Fn(Holder) -> [String; 2],
) {
    if area.h < LABEL * holders.len() as f64 && holders.len() > 1 {
        let all: Vec<String> = holders.iter().map(|holder| holder.label()).collect();
        let number = format!("{} holders", holders.len());
        return svg.label(area, &[all.join(" "), number]);
    }
    for (place, holder) in holders.iter().rev().enumerate() {
        svg.label(area.band(place, holders.len()), &labels(*holder));
    }
}
