//! Smaller trees: what is left of a case when one thing after another is taken away and what was found is still there.

use crate::calls::{Call, Settings};
use crate::encode::NullStyle;
use crate::recipes::{source, suits};
use crate::roundtrip::ast::{NodeStyle, YamlNode, YamlNodeKind};
use crate::scanner::ScalarStyle;

/// Documents and the call that writes them.
#[derive(Debug, Clone)]
pub struct Case {
    pub documents: Vec<YamlNode>,
    pub call: Call,
}

/// The smallest case on the way down for which `holds` still says yes.
pub fn smallest(mut case: Case, mut holds: impl FnMut(&Case) -> bool) -> Case {
    'again: loop {
        for smaller in steps(&case) {
            if holds(&smaller) {
                case = smaller;
                continue 'again;
            }
        }
        return case;
    }
}

/// Each case that has one thing less.
fn steps(case: &Case) -> Vec<Case> {
    let mut made = Vec::new();
    for call in calls(&case.call) {
        let documents = case.documents.clone();
        made.push(Case { documents, call });
    }
    if case.documents.len() > 1 {
        for index in 0..case.documents.len() {
            let mut documents = case.documents.clone();
            documents.remove(index);
            let call = case.call;
            made.push(Case { documents, call });
        }
    }
    for index in 0..case.documents.len() {
        for node in nodes(&case.documents[index]) {
            let mut documents = case.documents.clone();
            documents[index] = node;
            if aliases_known(&documents) {
                let call = case.call;
                made.push(Case { documents, call });
            }
        }
    }
    made
}

fn calls(call: &Call) -> Vec<Call> {
    let plain = Call::EmitRoundtripAllWith(NullStyle::Null);
    let Call::EmitRoundtripDump(settings) = call else {
        return if *call == plain {
            Vec::new()
        } else {
            vec![plain]
        };
    };
    let mut made = vec![plain];
    let clear: [fn(&mut Settings); 7] = [
        |s| s.null_style = NullStyle::Null,
        |s| s.indent_sequences = false,
        |s| s.explicit_end = false,
        |s| s.indent = 0,
        |s| s.indentless = false,
        |s| s.single_quotes = false,
        |s| s.width = 0,
    ];
    for change in clear {
        let mut less = *settings;
        change(&mut less);
        if less != *settings {
            made.push(Call::EmitRoundtripDump(less));
        }
    }
    made
}

/// The node with one thing less, in it or below it. Large things come first.
fn nodes(node: &YamlNode) -> Vec<YamlNode> {
    let mut made = children_instead(node);
    made.extend(fewer_children(node));
    made.extend(less_beside(node));
    if let YamlNodeKind::Scalar(text, style) = &node.kind {
        for (text, style) in texts(text, *style) {
            let mut changed = node.clone();
            if node.comments.raw.is_some() {
                changed.comments.raw = source(&text, style);
            }
            changed.kind = YamlNodeKind::Scalar(text, style);
            made.push(changed);
        }
    }
    match &node.kind {
        YamlNodeKind::Sequence(items) => {
            for index in 0..items.len() {
                for smaller in nodes(&items[index]) {
                    let mut items = items.clone();
                    items[index] = smaller;
                    made.push(with_kind(node, YamlNodeKind::Sequence(items)));
                }
            }
        }
        YamlNodeKind::Mapping(pairs) => {
            for index in 0..pairs.len() {
                for smaller in nodes(&pairs[index].0) {
                    let mut pairs = pairs.clone();
                    pairs[index].0 = smaller;
                    made.push(with_kind(node, YamlNodeKind::Mapping(pairs)));
                }
                for smaller in nodes(&pairs[index].1) {
                    let mut pairs = pairs.clone();
                    pairs[index].1 = smaller;
                    made.push(with_kind(node, YamlNodeKind::Mapping(pairs)));
                }
            }
        }
        _ => {}
    }
    made
}

fn with_kind(node: &YamlNode, kind: YamlNodeKind) -> YamlNode {
    let mut changed = node.clone();
    changed.kind = kind;
    changed
}

/// A child in its parent's place, or a null or a letter in a node's.
fn children_instead(node: &YamlNode) -> Vec<YamlNode> {
    let mut made = Vec::new();
    match &node.kind {
        YamlNodeKind::Sequence(items) => made.extend(items.iter().cloned()),
        YamlNodeKind::Mapping(pairs) => made.extend(pairs.iter().map(|(_, value)| value.clone())),
        _ => {}
    }
    for child in &mut made {
        child.explicit_start |= node.explicit_start;
        child.explicit_key = node.explicit_key;
    }
    let letter = YamlNodeKind::Scalar("a".to_owned(), ScalarStyle::Plain);
    let null = matches!(node.kind, YamlNodeKind::Null);
    let is_letter =
        matches!(&node.kind, YamlNodeKind::Scalar(text, ScalarStyle::Plain) if text == "a");
    // A tagged null is a difference of its own.
    let mut least = Vec::new();
    if !null && node.tag.is_none() {
        least.push(YamlNodeKind::Null);
    }
    if !null && !is_letter {
        least.push(letter);
    }
    for kind in least {
        let mut changed = with_kind(node, kind);
        changed.comments.raw = None;
        made.push(changed);
    }
    made
}

fn fewer_children(node: &YamlNode) -> Vec<YamlNode> {
    let mut made = Vec::new();
    match &node.kind {
        YamlNodeKind::Sequence(items) => {
            for index in 0..items.len() {
                let mut items = items.clone();
                items.remove(index);
                made.push(with_kind(node, YamlNodeKind::Sequence(items)));
            }
        }
        YamlNodeKind::Mapping(pairs) => {
            for index in 0..pairs.len() {
                let mut pairs = pairs.clone();
                pairs.remove(index);
                made.push(with_kind(node, YamlNodeKind::Mapping(pairs)));
            }
        }
        _ => {}
    }
    made
}

/// Without one of the things that stand beside the kind.
fn less_beside(node: &YamlNode) -> Vec<YamlNode> {
    type Clear = (fn(&YamlNode) -> bool, fn(&mut YamlNode));
    let clear: [Clear; 18] = [
        (|n| n.tag.is_some(), |n| n.tag = None),
        (|n| n.anchor.is_some(), |n| n.anchor = None),
        (|n| n.source.is_some(), |n| n.source = None),
        (|n| !n.comments.head.is_empty(), |n| n.comments.head.clear()),
        (
            |n| n.comments.inline.is_some(),
            |n| n.comments.inline = None,
        ),
        (|n| !n.comments.foot.is_empty(), |n| n.comments.foot.clear()),
        (|n| n.comments.raw.is_some(), |n| n.comments.raw = None),
        (|n| !n.directives.is_empty(), |n| n.directives.clear()),
        (
            |n| n.comments.blank_before > 0,
            |n| n.comments.blank_before -= 1,
        ),
        (|n| n.comments.value_pad > 0, |n| n.comments.value_pad = 0),
        (|n| n.span.column > 0, |n| n.span.column = 0),
        (
            |n| n.comments.inline_before_value,
            |n| n.comments.inline_before_value = false,
        ),
        (|n| n.comments.compact, |n| n.comments.compact = false),
        (|n| n.synthetic, |n| n.synthetic = false),
        (|n| n.explicit_key, |n| n.explicit_key = false),
        (
            |n| n.explicit_start && n.directives.is_empty(),
            |n| n.explicit_start = false,
        ),
        (|n| n.leading_bom, |n| n.leading_bom = false),
        (
            |n| n.style == NodeStyle::Flow,
            |n| n.style = NodeStyle::Block,
        ),
    ];
    let mut made = Vec::new();
    for (there, take) in clear {
        if there(node) {
            let mut changed = node.clone();
            take(&mut changed);
            made.push(changed);
        }
    }
    made.extend(shorter_comments(node));
    made
}

fn shorter_comments(node: &YamlNode) -> Vec<YamlNode> {
    let mut made = Vec::new();
    let mut changed = node.clone();
    let comments = &mut changed.comments;
    let long = comments.inline_spaces > 0
        || comments
            .inline
            .as_ref()
            .is_some_and(|text| !text.is_empty())
        || comments.head.iter().any(|head| !head.text.is_empty())
        || comments.foot.iter().any(|foot| !foot.is_empty());
    if long {
        comments.inline_spaces = 0;
        comments.inline = comments.inline.take().map(|_| String::new());
        comments
            .head
            .iter_mut()
            .for_each(|head| head.text = "".into());
        comments.foot.iter_mut().for_each(String::clear);
        made.push(changed);
    }
    made
}

/// Texts with a part less that still suit the style, and the same text in plain style.
fn texts(text: &str, style: ScalarStyle) -> Vec<(String, ScalarStyle)> {
    let mut made = Vec::new();
    if style != ScalarStyle::Plain {
        made.push((text.to_owned(), ScalarStyle::Plain));
    }
    let characters: Vec<char> = text.chars().collect();
    let length = characters.len();
    let mut part = length;
    while part > 0 {
        for start in (0..length).step_by(part) {
            let end = (start + part).min(length);
            let kept = characters[..start].iter().chain(&characters[end..]);
            made.push((kept.collect(), style));
        }
        part /= 2;
    }
    for index in 0..length {
        if !matches!(characters[index], 'a' | ' ' | '\n') {
            let mut other = characters.clone();
            other[index] = 'a';
            made.push((other.into_iter().collect(), style));
        }
    }
    made.retain(|(text, style)| suits(text, *style));
    made
}

/// Every alias names an anchor of its document.
fn aliases_known(documents: &[YamlNode]) -> bool {
    documents.iter().all(|document| {
        let (mut anchors, mut aliases) = (Vec::new(), Vec::new());
        names(document, &mut anchors, &mut aliases);
        aliases.iter().all(|alias| anchors.contains(alias))
    })
}

fn names(node: &YamlNode, anchors: &mut Vec<String>, aliases: &mut Vec<String>) {
    anchors.extend(node.anchor.clone());
    match &node.kind {
        YamlNodeKind::Alias(name) => aliases.push(name.clone()),
        YamlNodeKind::Sequence(items) => {
            items.iter().for_each(|item| names(item, anchors, aliases));
        }
        YamlNodeKind::Mapping(pairs) => pairs.iter().for_each(|(key, value)| {
            names(key, anchors, aliases);
            names(value, anchors, aliases);
        }),
        _ => {}
    }
}
