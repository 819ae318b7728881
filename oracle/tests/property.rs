//! The property of demand 3: the Rust has it, and each of some faulty answers is noticed.

use oracle::calls::Call;
use oracle::deck::{build, Deck, Pooling};
use oracle::included::EachBelow;
use oracle::judge;
use oracle::property::{ask_the_rust, check, pair, Ask, Said, Seen};
use oracle::random::Rng;
use oracle::roundtrip::ast::{YamlNode, YamlNodeKind};
use std::collections::BTreeSet;

fn tried(pairs: u64, ask: Ask) -> Vec<Result<Seen, String>> {
    (0..pairs)
        .map(|seed| {
            let rng = &mut Rng::new(seed);
            let pair = pair(rng);
            check(rng, &pair, ask)
        })
        .collect()
}

#[test]
fn the_rust_has_it() {
    let mut seen = Vec::new();
    for (number, tried) in tried(10_000, &ask_the_rust).into_iter().enumerate() {
        seen.push(tried.unwrap_or_else(|why| panic!("pair {number}: {why}")));
    }
    let count = |what: fn(&Seen) -> bool| seen.iter().filter(|seen| what(seen)).count();
    assert!(count(|seen| seen.root) > 1_000);
    assert!(count(|seen| seen.around > 0) > 2_000);
    assert!(count(|seen| seen.back > 0) > 500);
    assert!(count(|seen| seen.around > seen.back) > 500);
    for own in [[true, true], [true, false], [false, true], [false, false]] {
        let met = seen.iter().filter(|seen| seen.own_back == own).count();
        assert!(met > 300, "{own:?}: {met}");
    }
}

/// What a faulty answerer does to the tree before it looks, and to what it says.
struct Fault {
    name: &'static str,
    tree: fn(&mut YamlNode),
    said: fn(&Call, &[YamlNode], &mut Said),
}

fn as_it_is(_: &mut YamlNode) {}

fn as_said(_: &Call, _: &[YamlNode], _: &mut Said) {}

/// The children that are no keys.
fn inner(node: &YamlNode) -> Vec<&YamlNode> {
    match &node.kind {
        YamlNodeKind::Sequence(items) => items.iter().collect(),
        YamlNodeKind::Mapping(pairs) => pairs.iter().map(|(_, value)| value).collect(),
        _ => Vec::new(),
    }
}

/// A changed mark on an included value or item counts for the file around it.
fn included_value_counts(node: &mut YamlNode) {
    let child = |child: &&YamlNode| child.source.is_some() && child.comments.modified;
    if inner(node).iter().any(child) {
        node.comments.modified = true;
    }
}

/// An included key's marks are not seen.
fn included_key_skipped(node: &mut YamlNode) {
    if let YamlNodeKind::Mapping(pairs) = &mut node.kind {
        for (key, _) in pairs.iter_mut().filter(|(key, _)| key.source.is_some()) {
            key.each_below(&mut |inner| inner.comments.modified = false);
        }
    }
}

/// An include's own mark is not seen.
fn own_mark_skipped(node: &mut YamlNode) {
    if node.source.is_some() {
        node.comments.modified = false;
    }
}

/// An include's own tag is written beside its directive.
fn tag_shown(node: &mut YamlNode) {
    if let (Some(source), Some(tag)) = (&mut node.source, &node.tag) {
        source.target.push_str(tag);
    }
}

fn one_entry_for_each_id(_: &Call, _: &[YamlNode], said: &mut Said) {
    let mut met = BTreeSet::new();
    said.files.retain(|(id, _)| met.insert(*id));
}

fn not_in_order(_: &Call, _: &[YamlNode], said: &mut Said) {
    said.files.reverse();
}

fn the_last_left_out(_: &Call, _: &[YamlNode], said: &mut Said) {
    if said.files.len() > 1 {
        said.files.pop();
    }
}

/// Every file is the first one again.
fn the_first_again(_: &Call, _: &[YamlNode], said: &mut Said) {
    if let Some((_, first)) = said.files.first().cloned() {
        said.files
            .iter_mut()
            .for_each(|(_, file)| *file = first.clone());
    }
}

fn nothing_changed(call: &Call, _: &[YamlNode], said: &mut Said) {
    if *call == Call::LocalModified {
        said.yes = false;
    }
}

/// Any mark in the document counts.
fn any_mark(call: &Call, documents: &[YamlNode], said: &mut Said) {
    if *call == Call::LocalModified {
        let mut document = documents[0].clone();
        document.each_below(&mut |node| said.yes |= node.comments.modified);
    }
}

fn refused(_: &Call, documents: &[YamlNode], said: &mut Said) {
    if documents[0].source.is_some() {
        *said = Said {
            number: 3,
            ..Said::default()
        };
    }
}

fn faults() -> Vec<Fault> {
    let tree = |name, tree| Fault {
        name,
        tree,
        said: as_said,
    };
    let said = |name, said| Fault {
        name,
        tree: as_it_is,
        said,
    };
    vec![
        tree("an included value counts", included_value_counts),
        tree("an included key is skipped", included_key_skipped),
        tree("an include's own mark is skipped", own_mark_skipped),
        tree("an include's tag is shown", tag_shown),
        said("one entry for each id", one_entry_for_each_id),
        said("not in the order of the tree", not_in_order),
        said("the last file is left out", the_last_left_out),
        said("the first file again and again", the_first_again),
        said("no document is ever handed back", nothing_changed),
        said("any mark hands the document back", any_mark),
        said("a document that is an include is refused", refused),
    ]
}

#[test]
fn faults_are_noticed() {
    for fault in faults() {
        let ask = |call: &Call, deck: &Deck| {
            let mut documents = judge::read(&deck.deck, &deck.pool).ok()?;
            for document in &mut documents {
                document.each_below(&mut |node| (fault.tree)(node));
            }
            let deck = build(&documents, Pooling::Shared, &mut Rng::new(0));
            let mut said = ask_the_rust(call, &deck)?;
            (fault.said)(call, &documents, &mut said);
            Some(said)
        };
        let noticed = tried(1_000, &ask).iter().filter(|one| one.is_err()).count();
        assert!(noticed >= 10, "{}: {noticed} of 1,000", fault.name);
    }
}
