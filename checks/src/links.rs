//! Links from documents to files.

use std::path::Path;

/// The targets of a text's links: what stands in `](..)`, without the place in the file.
pub fn targets(text: &str) -> Vec<&str> {
    let rests = text.match_indices("](").map(|(at, _)| &text[at + 2..]);
    let inside = rests.filter_map(|rest| rest.find(['(', ')', ' ']).map(|end| &rest[..end]));
    inside
        .filter(|target| !target.contains("://"))
        .map(|target| target.split('#').next().unwrap_or_default())
        .collect()
}

/// The links of a document that lead to no file.
pub fn broken(document: &str, text: &str) -> Vec<String> {
    let folder = Path::new(document).parent().unwrap_or(Path::new(""));
    let lost = targets(text)
        .into_iter()
        .filter(|target| !target.is_empty() && !folder.join(target).exists());
    lost.map(|target| format!("{document}: the link to {target} leads to nothing."))
        .collect()
}

#[cfg(test)]
mod tests {
    use super::*;

    #[test]
    fn links_in_and_out_of_the_project() {
        let text =
            "see [the rules](docs/RULES.md#8-calls), [it](https://example.org) and [here](#below)";
        assert_eq!(targets(text), ["docs/RULES.md", ""]);
        assert_eq!(
            broken("README.md", "[x](no/such/file.md)"),
            ["README.md: the link to no/such/file.md leads to nothing."]
        );
    }
}
