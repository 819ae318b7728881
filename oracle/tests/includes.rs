//! Demand 3 tried on the Rust itself: what an include brought in stays out of the files around it, a file is handed back
//! exactly when the demand says so, and in flow and as a key an include is written as its content.

use oracle::calls::Settings;
use oracle::encode::NullStyle;
use oracle::random::{lending, trees, Rng};
use oracle::roundtrip::ast::{NodeStyle, YamlNode, YamlNodeKind};
use oracle::roundtrip::emit::{self, DumpConfig};

const CASES: u64 = 20_000;

/// The children of a node, each with whether it is a key.
fn children(node: &YamlNode) -> Vec<(&YamlNode, bool)> {
    match &node.kind {
        YamlNodeKind::Sequence(items) => items.iter().map(|item| (item, false)).collect(),
        YamlNodeKind::Mapping(pairs) => pairs
            .iter()
            .flat_map(|(key, value)| [(key, true), (value, false)])
            .collect(),
        _ => Vec::new(),
    }
}

fn child_mut(node: &mut YamlNode, index: usize) -> &mut YamlNode {
    match &mut node.kind {
        YamlNodeKind::Sequence(items) => &mut items[index],
        YamlNodeKind::Mapping(pairs) => {
            let (key, value) = &mut pairs[index / 2];
            if index.is_multiple_of(2) {
                key
            } else {
                value
            }
        }
        _ => unreachable!("only a collection has children"),
    }
}

/// The paths, as child numbers from the root, to each include reached only through block collections and no key.
fn block_includes(node: &YamlNode, path: &mut Vec<usize>, found: &mut Vec<Vec<usize>>) {
    if node.source.is_some() {
        found.push(path.clone());
    }
    if node.style == NodeStyle::Flow {
        return;
    }
    for (index, (child, key)) in children(node).into_iter().enumerate() {
        if !key {
            path.push(index);
            block_includes(child, path, found);
            path.pop();
        }
    }
}

/// Changes all that the include brought in: its kind with all below, form, tag, anchor, raw text and changed mark.
fn bring_in_other(rng: &mut Rng, root: &YamlNode, path: &[usize]) -> YamlNode {
    let mut changed = root.clone();
    let mut node = &mut changed;
    for &index in path {
        node = child_mut(node, index);
    }
    let other = trees::document(rng, 6, 10);
    node.kind = other.kind;
    node.style = other.style;
    node.tag = other.tag;
    node.anchor = other.anchor;
    node.comments.raw = other.comments.raw;
    node.comments.modified = rng.one_in(2);
    changed
}

fn dump(root: &YamlNode, settings: &Settings) -> Vec<u8> {
    let config = DumpConfig {
        indent_sequences: settings.indent_sequences,
        explicit_end: settings.explicit_end,
        indent: settings.indent,
        indentless: settings.indentless,
        single_quotes: settings.single_quotes,
        width: settings.width,
    };
    emit::emit_roundtrip_dump(root, settings.null_style, config)
}

/// The files around the node at the end of the path, the document first: bytes, and whether each is handed back.
fn files_around(root: &YamlNode, path: &[usize]) -> Vec<(Vec<u8>, bool)> {
    let mut files = vec![(emit::emit_roundtrip(root), emit::local_modified(root))];
    let mut node = root;
    for &index in path {
        if node.source.is_some() {
            let mut file = node.clone();
            file.source = None;
            files.push((emit::emit_roundtrip(&file), emit::local_modified(node)));
        }
        node = children(node)[index].0;
    }
    files
}

#[test]
fn what_is_brought_in_stays_inside() {
    let mut tried = 0;
    for seed in 0..CASES {
        let mut rng = Rng::new(seed);
        let root = trees::document(&mut rng, 20, 10);
        let mut found = Vec::new();
        block_includes(&root, &mut Vec::new(), &mut found);
        let settings = lending::good_settings(&mut rng);
        for path in found {
            let other = bring_in_other(&mut rng, &root, &path);
            assert_eq!(
                dump(&root, &settings),
                dump(&other, &settings),
                "seed {seed}"
            );
            let (before, after) = (files_around(&root, &path), files_around(&other, &path));
            if path.is_empty() {
                assert_eq!(before[0].0, after[0].0, "seed {seed}");
            } else {
                assert_eq!(before, after, "seed {seed}");
            }
            tried += 1;
        }
    }
    println!("includes tried: {tried}");
    assert!(tried > 1_000);
}

/// Whether a changed mark lies here, or below on a path that enters an include only as a key.
fn mark_in_reach(node: &YamlNode) -> bool {
    let reached = |child: &YamlNode, key: bool| key || child.source.is_none();
    let below = children(node).into_iter();
    node.comments.modified
        || below
            .filter(|(child, key)| reached(child, *key))
            .any(|(child, _)| mark_in_reach(child))
}

/// The ids that must be handed back, in the order of the tree.
fn expected(node: &YamlNode, ids: &mut Vec<u32>) {
    let id = node
        .source
        .as_ref()
        .and_then(|source| source.target_file_id);
    if let Some(id) = id.filter(|_| mark_in_reach(node)) {
        ids.push(id);
    }
    for (child, _) in children(node) {
        expected(child, ids);
    }
}

#[test]
fn handed_back_once_and_in_order() {
    for seed in 0..CASES {
        let mut rng = Rng::new(seed);
        let docs = trees::documents(&mut rng, 20, 6);
        let mut ids = Vec::new();
        docs.iter().for_each(|doc| expected(doc, &mut ids));
        let given = emit::collect_changed_include_changes(&docs);
        let given: Vec<u32> = given.into_iter().map(|(id, _)| id).collect();
        assert_eq!(given, ids, "seed {seed}");
        for doc in &docs {
            assert_eq!(emit::local_modified(doc), mark_in_reach(doc), "seed {seed}");
        }
    }
}

/// Takes the include away from every key and from all that lies in flow, however deep.
fn without_unwritten(node: &mut YamlNode, in_flow: bool, key: bool) {
    if in_flow || key {
        node.source = None;
    }
    let flow = in_flow || node.style == NodeStyle::Flow;
    match &mut node.kind {
        YamlNodeKind::Sequence(items) => {
            items
                .iter_mut()
                .for_each(|item| without_unwritten(item, flow, false));
        }
        YamlNodeKind::Mapping(pairs) => {
            for (key, value) in pairs {
                without_unwritten(key, flow, true);
                without_unwritten(value, flow, false);
            }
        }
        _ => {}
    }
}

#[test]
fn in_flow_and_as_a_key_the_content_is_written() {
    for seed in 0..CASES {
        let mut rng = Rng::new(seed);
        let root = trees::document(&mut rng, 20, 10);
        let mut bare = root.clone();
        without_unwritten(&mut bare, false, false);
        let style = NullStyle::Tilde;
        let (written, again) = (
            emit::emit_roundtrip_with(&root, style),
            emit::emit_roundtrip_with(&bare, style),
        );
        assert_eq!(written, again, "seed {seed}");
    }
}
