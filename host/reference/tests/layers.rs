//! The modules stand in the layers of lib.rs: a module uses modules of the layers above its own alone.

use std::path::Path;

/// The layer of each module: how many blank lines there are before it.
fn layers(lib: &str) -> Vec<(String, usize)> {
    let layered =
        lib.split("\n\n").enumerate().flat_map(|(layer, paragraph)| paragraph.lines().map(move |line| (line, layer)));
    layered
        .filter_map(|(line, layer)| Some((line.strip_prefix("pub mod ")?.strip_suffix(';')?.to_string(), layer)))
        .collect()
}

/// The modules that a text names behind `crate::`, alone or in braces.
fn used(text: &str) -> Vec<String> {
    let behind = text.split("crate::").skip(1).map(|rest| rest.split(';').next().unwrap_or(rest));
    let names = behind.flat_map(|path| match path.strip_prefix('{') {
        Some(several) => several.trim_end_matches('}').split(", ").collect(),
        None => vec![path],
    });
    names.map(|path| path.split("::").next().unwrap_or(path).to_string()).collect()
}

#[test]
fn modules_use_the_layers_above_them() {
    let source = Path::new(env!("CARGO_MANIFEST_DIR")).join("src");
    let read = |name: &str| std::fs::read_to_string(source.join(format!("{name}.rs"))).unwrap();
    let layers = layers(&read("lib"));
    let layer_of = |name: &str| layers.iter().find(|(module, _)| module == name).map(|(_, layer)| *layer);
    assert!(layers.len() > 2, "lib.rs has layers");
    for (module, layer) in &layers {
        for name in used(&read(module)) {
            let below = layer_of(&name).unwrap_or_else(|| panic!("{module} uses {name}, which is no module"));
            assert!(below < *layer, "{module} uses {name}, which is in its own layer or below");
        }
    }
}

#[test]
fn uses_are_found_alone_and_in_braces() {
    assert_eq!(
        used("use crate::course::{dot, root};\nuse crate::{dubins, lines::dot3};\nuse std::ops::Range;"),
        ["course", "dubins", "lines"]
    );
}
