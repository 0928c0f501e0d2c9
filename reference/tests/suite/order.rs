//! The order of the reference's modules, as `lib.rs` groups them.

use std::fs;
use std::path::PathBuf;

/// Gives the text of a source file.
fn source(name: &str) -> String {
    let folder = PathBuf::from(env!("CARGO_MANIFEST_DIR")).join("src");
    fs::read_to_string(folder.join(name)).expect("the file can be read")
}

/// Gives the modules of `lib.rs`, each with the number of its group; empty lines part the groups.
fn modules() -> Vec<(String, usize)> {
    let mut modules = Vec::new();
    for (group, part) in source("lib.rs").split("\n\n").enumerate() {
        let names = part.lines().filter_map(|line| line.strip_prefix("mod "));
        modules.extend(names.map(|name| (name.trim_end_matches(';').to_string(), group)));
    }
    modules
}

#[test]
fn a_module_imports_only_from_the_groups_above_its_own() {
    let modules = modules();
    assert!(modules.len() > 10);
    for (module, group) in &modules {
        let text = source(&format!("{module}.rs"));
        assert!(!text.contains("super::"), "{module} names its parent");
        for rest in text.split("crate::").skip(1) {
            let above = modules
                .iter()
                .any(|(name, of)| of < group && rest.starts_with(&format!("{name}::")));
            let what = rest.lines().next().unwrap_or_default();
            assert!(above, "{module} imports {what}");
        }
    }
}
