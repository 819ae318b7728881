//! The files of the example with two engines: each as the Rust writes it, or the archive where one is linked.

#[path = "../../examples/engines/recipe.rs"]
mod recipe;
#[path = "../../examples/engines/writing.rs"]
mod writing;

use oracle::archive;
use oracle::calls::{self, Call, Lent, Outcome};
use oracle::roundtrip::ast::{YamlNode, YamlNodeKind};
use recipe::{corrected, CORRECTIONS, FILES};
use std::collections::BTreeMap;
use std::fs;
use std::path::{Path, PathBuf};

type Files = BTreeMap<String, String>;

fn ask(call: &Call, lent: &Lent) -> Outcome {
    if archive::has(call) {
        archive::outcome(call, lent)
    } else {
        calls::outcome(call, lent)
    }
}

fn example() -> PathBuf {
    Path::new(env!("CARGO_MANIFEST_DIR")).join("../examples/engines")
}

/// The files below a folder, by their paths from it.
fn below(folder: &Path) -> Files {
    let mut found = Files::new();
    let mut folders = vec![folder.to_owned()];
    while let Some(next) = folders.pop() {
        for entry in fs::read_dir(&next).expect("a folder") {
            let path = entry.expect("an entry").path();
            if path.is_dir() {
                folders.push(path);
                continue;
            }
            let name = path.strip_prefix(folder).expect("a path below");
            let text = fs::read_to_string(&path).expect("a text");
            found.insert(name.display().to_string(), text);
        }
    }
    found
}

/// Each included file as a document of its own.
fn included(node: &YamlNode, found: &mut Files) {
    if let Some(id) = node
        .source
        .as_ref()
        .and_then(|source| source.target_file_id)
    {
        let mut file = node.clone();
        file.source = None;
        found.insert(FILES[id as usize].to_owned(), text(&file));
    }
    match &node.kind {
        YamlNodeKind::Sequence(items) => items.iter().for_each(|item| included(item, found)),
        YamlNodeKind::Mapping(pairs) => pairs.iter().for_each(|(_, value)| included(value, found)),
        _ => {}
    }
}

fn text(document: &YamlNode) -> String {
    String::from_utf8(writing::bytes(document, ask)).expect("a text")
}

#[test]
fn the_files_before() {
    let recipe = recipe::recipe();
    let mut files = Files::from([(FILES[0].to_owned(), text(&recipe))]);
    included(&recipe, &mut files);
    assert_eq!(files, below(&example().join("files")));
    assert!(writing::changed_files(&recipe, ask).is_empty());
}

#[test]
fn the_files_that_change() {
    for correction in &CORRECTIONS {
        let files: Files = writing::changed_files(&corrected(correction), ask)
            .into_iter()
            .map(|(name, bytes)| (name.to_owned(), String::from_utf8(bytes).expect("a text")))
            .collect();
        let expected = below(&example().join("expected").join(correction.name));
        assert_eq!(files, expected, "{}", correction.name);
        assert_eq!(files.len(), 1, "{}", correction.name);
    }
}
