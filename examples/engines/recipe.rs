//! The tree of a threshold screen, as the tuning tool's reader would build it: a recipe, one included file for each of two engines, and in one of
//! them a file of its own for the bands.

use oracle::roundtrip::ast::{HeadComment, IncludeSource, NodeStyle, YamlNode, YamlNodeKind};
use oracle::scanner::{ScalarStyle, Span};

/// The files, each at the number by which its include names it; the document itself is the first.
pub const FILES: [&str; 4] = [
    "recipe.yaml",
    "engines/fast.yaml",
    "engines/fine.yaml",
    "engines/bands.yaml",
];

/// What is done to the tree: a name, and where the value stands that is given its new text.
pub struct Correction {
    pub name: &'static str,
    pub path: &'static [usize],
    pub text: &'static str,
}

pub const CORRECTIONS: [Correction; 3] = [
    // The origin of the fine engine: engines, fine, origin, y.
    Correction {
        name: "origin",
        path: &[3, 1, 1, 1],
        text: "5",
    },
    // The same one file further in: engines, fine, bands, origin, the second band.
    Correction {
        name: "nested",
        path: &[3, 1, 2, 1, 1],
        text: "5",
    },
    // The recipe's own angle.
    Correction {
        name: "angle",
        path: &[1],
        text: "26.5651",
    },
];

/// The recipe as it was read.
pub fn recipe() -> YamlNode {
    mapping(vec![
        (
            above(key("tile"), "Threshold screen for a monochrome laser."),
            beside(plain("16x16"), "cells"),
        ),
        (key("angle"), beside(plain("18.4349"), "degrees, as typed")),
        (key("origin"), flow(vec![plain("0"), plain("0")])),
        (
            apart(above(key("engines"), "One file for each engine.")),
            mapping(vec![
                (key("fast"), beside(included(fast(), 1), "600 dpi")),
                (key("fine"), beside(included(fine(), 2), "1200 dpi")),
            ]),
        ),
    ])
}

fn fast() -> YamlNode {
    mapping(vec![
        (above(key("dpi"), "The fast engine."), plain("600")),
        (
            key("origin"),
            mapping(vec![
                (key("x"), plain("0")),
                (key("y"), beside(plain("2"), "lines")),
            ]),
        ),
    ])
}

fn fine() -> YamlNode {
    mapping(vec![
        (above(key("dpi"), "The fine engine."), plain("1200")),
        (
            key("origin"),
            mapping(vec![
                (key("x"), beside(raw(plain("16"), "0x10"), "as typed")),
                (
                    above(key("y"), "Must agree with the band's height."),
                    beside(raw(plain("3"), "0x3"), "lines"),
                ),
            ]),
        ),
        (key("bands"), included(bands(), 3)),
    ])
}

fn bands() -> YamlNode {
    mapping(vec![
        (
            above(key("height"), "Bands of the fine engine."),
            beside(plain("128"), "lines"),
        ),
        (
            key("origin"),
            column(
                sequence(vec![
                    beside(plain("0"), "first band"),
                    beside(plain("3"), "every other band"),
                ]),
                2,
            ),
        ),
    ])
}

/// The recipe after a correction: the value has its new text and a changed mark, and nothing else is touched.
pub fn corrected(correction: &Correction) -> YamlNode {
    let mut root = recipe();
    let mut node = &mut root;
    for &index in correction.path {
        node = value(node, index);
    }
    node.kind = YamlNodeKind::Scalar(correction.text.to_owned(), ScalarStyle::Plain);
    node.comments.modified = true;
    root
}

/// An item, or the value of a pair.
fn value(node: &mut YamlNode, index: usize) -> &mut YamlNode {
    match &mut node.kind {
        YamlNodeKind::Sequence(items) => &mut items[index],
        YamlNodeKind::Mapping(pairs) => &mut pairs[index].1,
        _ => unreachable!("a path leads through collections"),
    }
}

fn node(kind: YamlNodeKind) -> YamlNode {
    YamlNode::new(kind, Span::default())
}

fn plain(text: &str) -> YamlNode {
    node(YamlNodeKind::Scalar(text.to_owned(), ScalarStyle::Plain))
}

fn key(text: &str) -> YamlNode {
    plain(text)
}

fn mapping(pairs: Vec<(YamlNode, YamlNode)>) -> YamlNode {
    node(YamlNodeKind::Mapping(pairs))
}

fn sequence(items: Vec<YamlNode>) -> YamlNode {
    node(YamlNodeKind::Sequence(items))
}

fn flow(items: Vec<YamlNode>) -> YamlNode {
    sequence(items).with_style(NodeStyle::Flow)
}

/// The text as it was typed, which is written as long as the value is not changed.
fn raw(mut node: YamlNode, text: &str) -> YamlNode {
    node.comments.raw = Some(text.to_owned());
    node
}

fn above(mut node: YamlNode, comment: &str) -> YamlNode {
    node.comments.head.push(HeadComment::above(comment));
    node
}

fn beside(mut node: YamlNode, comment: &str) -> YamlNode {
    node.comments.inline = Some(comment.to_owned());
    node
}

/// A blank line before it.
fn apart(mut node: YamlNode) -> YamlNode {
    node.comments.blank_before = 1;
    node
}

fn column(mut node: YamlNode, column: u32) -> YamlNode {
    node.span.column = column;
    node
}

/// What an include brought in, with its directive. The target is told from the folder of the file around it.
fn included(mut node: YamlNode, file: usize) -> YamlNode {
    let target = if file == 3 { "bands.yaml" } else { FILES[file] };
    node.source = Some(IncludeSource {
        tag: "!include".to_owned(),
        target: target.to_owned(),
        target_file_id: Some(file as u32),
    });
    node
}
