//! Trees as a careful builder would make them: recipes. Every text suits its style and its place, anchors stand before their aliases, comments
//! have one line. What YAML readers make of them should be the tree.

use crate::leaves;
use crate::random::Rng;
use crate::roundtrip::ast::{HeadComment, IncludeSource, NodeStyle, YamlNode, YamlNodeKind};
use crate::scanner::{ScalarStyle, Span};

#[rustfmt::skip]
const WORDS: [&str; 24] = [
    "angle", "tile", "origin", "it's", "a:b", "x,y", "0.5", "31", "-1", "true", "été", "\u{1f600}", "engine", "c#d", "<<", "=", "[c]", "{d}",
    "\"q\"", "a\\b", "e's", "http://f/g", "q:", "~h",
];
/// What may stand in single quotes beside words.
const SIGNS: [&str; 16] = [
    " ", "  ", "'", "''", "\"", "\\", ": ", " #", "- ", "? ", "&", "*", "!", "%", "\u{a0}", "é",
];
/// What only double quotes take.
const ODD: [&str; 14] = [
    "\n", "\n\n", "\n ", " \n", "\t", "\t ", "\r", "\0", "\u{1}", "\u{1b}", "\u{7f}", "\u{80}",
    "\u{feff}", "\u{fffe}",
];
/// What YAML 1.1 takes for line breaks.
const BREAKS: [&str; 3] = ["\u{85}", "\u{2028}", "\u{2029}"];

/// One to three documents, mostly one.
pub fn recipe(rng: &mut Rng, nodes: usize) -> Vec<YamlNode> {
    let count = rng.one_of(&[1, 1, 1, 1, 2, 3]);
    (0..count)
        .map(|number| {
            let mut cook = Cook {
                rng: &mut *rng,
                anchors: Vec::new(),
                crowded: 0,
                silent: false,
            };
            cook.crowded = cook.rng.one_of(&[0, 5, 15, 40]);
            cook.document(nodes.div_ceil(count), number)
        })
        .collect()
}

/// Whether a careful builder gives a scalar of this text this style, outside flow.
pub fn suits(text: &str, style: ScalarStyle) -> bool {
    let line = text.chars().all(|character| character >= ' ');
    // U+FEFF, and what YAML 1.1 takes for a line break, is the builder's to escape.
    let careful = ['\u{85}', '\u{2028}', '\u{2029}', '\u{feff}'];
    let printable = !text
        .chars()
        .any(|c| leaves::is_non_printable(c) || careful.contains(&c));
    match style {
        ScalarStyle::Plain => printable && line && is_plain(text),
        ScalarStyle::SingleQuoted => line && printable,
        ScalarStyle::DoubleQuoted => true,
        ScalarStyle::Literal => printable && (leaves::use_literal_block(text) || is_line(text)),
        ScalarStyle::Folded => printable && is_line(text.trim_end_matches('\n')),
    }
}

/// One line that does not begin with white space.
fn is_line(text: &str) -> bool {
    text.chars().all(|character| character >= ' ') && !text.starts_with(' ')
}

/// The plain rule of YAML 1.2.2, 7.3.3, outside flow, with some words left out that a reader would take for something else.
fn is_plain(text: &str) -> bool {
    let first_bad = "-?:,[]{}#&*!|>'\"%@`~<=";
    let safe_start = text.starts_with(|c: char| !first_bad.contains(c))
        || (text.starts_with(['-', '?', ':']) && text[1..].starts_with(|c: char| c > ' '));
    safe_start
        && !text.starts_with(' ')
        && !text.ends_with([' ', ':'])
        && !text.contains(": ")
        && !text.contains(" #")
        && !matches!(text, "null" | "---" | "...")
}

/// What a scalar's source may be: a block scalar without its last line break, its lines at column 2, or a number's other spelling.
pub fn source(text: &str, style: ScalarStyle) -> Option<String> {
    let marker = match style {
        ScalarStyle::Literal => b'|',
        ScalarStyle::Folded => b'>',
        ScalarStyle::Plain if text == "31" => return Some("0x1F".to_owned()),
        _ => return None,
    };
    if text.trim_end().is_empty() || text.ends_with("\n\n") {
        return None;
    }
    let mut made = leaves::block_scalar_header(text, marker);
    made.extend(leaves::block_scalar_body(text, 2));
    made.pop();
    String::from_utf8(made).ok()
}

struct Cook<'a> {
    rng: &'a mut Rng,
    anchors: Vec<String>,
    /// How often an optional thing occurs, in a hundred.
    crowded: usize,
    /// Inside a key.
    silent: bool,
}

#[derive(Clone, Copy, PartialEq)]
enum Place {
    Root,
    Key,
    Value,
    Item,
}

impl Cook<'_> {
    fn document(&mut self, nodes: usize, number: usize) -> YamlNode {
        let mut root = self.node(nodes, Place::Root, false);
        self.raw_values(&mut root);
        root.explicit_start = self.rng.one_in(4);
        root.leading_bom = number == 0 && self.rng.one_in(40);
        if self.rng.one_in(20) {
            root.explicit_start = true;
            let directive = self.rng.one_of(&["YAML 1.2", "TAG !e! tag:e,2020:"]);
            root.directives.push(directive.to_owned());
        }
        root
    }

    /// Values of a root mapping whose block scalars are replayed: there a raw text's lines stand at column 2.
    fn raw_values(&mut self, root: &mut YamlNode) {
        let block = root.style == NodeStyle::Block && root.tag.is_none();
        let YamlNodeKind::Mapping(pairs) = &mut root.kind else {
            return;
        };
        for (_, value) in pairs.iter_mut().filter(|_| block) {
            if let Some(raw) = self.raw(&value.kind) {
                value.comments.raw = Some(raw);
                value.comments.inline = None;
                value.comments.inline_before_value = false;
                value.comments.modified = self.rng.one_in(4);
            }
        }
    }

    /// The source of a scalar, now and then.
    fn raw(&mut self, kind: &YamlNodeKind) -> Option<String> {
        match kind {
            YamlNodeKind::Scalar(text, style) if self.rng.one_in(3) => source(text, *style),
            _ => None,
        }
    }

    fn now_and_then(&mut self) -> bool {
        self.rng.chance(self.crowded)
    }

    fn node(&mut self, budget: usize, place: Place, flow: bool) -> YamlNode {
        let inner = budget > 1 && (place != Place::Key || self.rng.one_in(4));
        if place != Place::Root && !self.anchors.is_empty() && self.rng.one_in(12) {
            let name = self.anchors[self.rng.below(self.anchors.len())].clone();
            return self.dressed(YamlNodeKind::Alias(name), place, flow);
        }
        let form = if flow || self.rng.one_in(6) {
            NodeStyle::Flow
        } else {
            NodeStyle::Block
        };
        let anchor = self.anchor();
        let kind = if inner {
            self.collection(budget - 1, flow || form == NodeStyle::Flow)
        } else {
            self.leaf(place, flow)
        };
        let mut node = self.dressed(kind, place, flow);
        node.anchor = anchor;
        if matches!(
            node.kind,
            YamlNodeKind::Sequence(_) | YamlNodeKind::Mapping(_)
        ) {
            node.style = form;
        }
        self.include(&mut node, place, flow);
        node
    }

    /// A new name, known to what comes after the node that begins here.
    fn anchor(&mut self) -> Option<String> {
        if !self.now_and_then() {
            return None;
        }
        let name = format!("a{}", self.anchors.len());
        self.anchors.push(name.clone());
        Some(name)
    }

    fn collection(&mut self, budget: usize, flow: bool) -> YamlNodeKind {
        let count = self.rng.between(1, 4);
        let share = (budget / count).max(1);
        if self.rng.one_in(2) {
            let items = (0..count).map(|_| self.node(share, Place::Item, flow));
            return YamlNodeKind::Sequence(items.collect());
        }
        let pairs = (0..count).map(|_| {
            let outside = std::mem::replace(&mut self.silent, true);
            let key = self.node(share / 2, Place::Key, flow);
            self.silent = outside;
            let value = self.node((share / 2).max(1), Place::Value, flow);
            (key, value)
        });
        YamlNodeKind::Mapping(pairs.collect())
    }

    fn leaf(&mut self, place: Place, flow: bool) -> YamlNodeKind {
        match self.rng.below(14) {
            0 => YamlNodeKind::Null,
            1 if place != Place::Key => YamlNodeKind::Sequence(Vec::new()),
            2 if place != Place::Key => YamlNodeKind::Mapping(Vec::new()),
            _ => self.scalar(place, flow),
        }
    }

    fn scalar(&mut self, place: Place, flow: bool) -> YamlNodeKind {
        let styles: &[ScalarStyle] = match place {
            Place::Key => &[
                ScalarStyle::Plain,
                ScalarStyle::SingleQuoted,
                ScalarStyle::DoubleQuoted,
            ],
            _ => &[
                ScalarStyle::Plain,
                ScalarStyle::SingleQuoted,
                ScalarStyle::DoubleQuoted,
                ScalarStyle::Literal,
                ScalarStyle::Folded,
            ],
        };
        let style = self.rng.one_of(styles);
        loop {
            let text = self.text(style);
            // In flow an empty plain scalar, or one that begins with `?`, is the builder's to quote.
            let bad_in_flow = flow && style == ScalarStyle::Plain && text.starts_with(['?', '-']);
            if suits(&text, style) && !bad_in_flow {
                return YamlNodeKind::Scalar(text, style);
            }
        }
    }

    fn text(&mut self, style: ScalarStyle) -> String {
        let mut made = String::new();
        for part in 0..self.rng.between(0, 6) {
            if part > 0 {
                made.push_str(self.rng.one_of(&[" ", " ", " ", ""]));
            }
            let odd = style == ScalarStyle::DoubleQuoted && self.rng.one_in(3);
            let signs = style != ScalarStyle::Plain && self.rng.one_in(4);
            made.push_str(match (odd, signs) {
                (true, _) if self.rng.one_in(40) => self.rng.one_of(&BREAKS),
                (true, _) => self.rng.one_of(&ODD),
                (_, true) => self.rng.one_of(&SIGNS),
                _ => self.rng.one_of(&WORDS),
            });
            if style == ScalarStyle::Literal {
                made.push_str(self.rng.one_of(&["\n", "\n", "\n\n", "\n  ", ""]));
            }
        }
        if matches!(style, ScalarStyle::Literal | ScalarStyle::Folded) {
            made.push_str(self.rng.one_of(&["", "", "\n", "\n\n"]));
        }
        made
    }

    /// A line of words.
    fn line(&mut self) -> String {
        let count = self.rng.between(0, 4);
        let words: Vec<&str> = (0..count).map(|_| self.rng.one_of(&WORDS)).collect();
        words.join(" ")
    }

    fn dressed(&mut self, kind: YamlNodeKind, place: Place, flow: bool) -> YamlNode {
        let column = self.rng.one_of(&[0, 0, 9]);
        let span = Span {
            column,
            ..Span::default()
        };
        let mut node = YamlNode::new(kind, span);
        let alias = matches!(node.kind, YamlNodeKind::Alias(_));
        let null = matches!(node.kind, YamlNodeKind::Null);
        if self.now_and_then() && !alias && (!null || self.rng.one_in(10)) {
            let tag = self.rng.one_of(&["!t", "!tone/u", "!!str"]);
            node.tag = Some(tag.to_owned());
        }
        self.comments(&mut node, place, flow);
        if self.now_and_then() {
            node.comments.blank_before = self.rng.between(1, 2) as u32;
        }
        if self.now_and_then() {
            node.comments.value_pad = self.rng.between(1, 4) as u32;
        }
        node.comments.compact = self.rng.one_in(2);
        node.comments.inline_before_value = node.comments.inline.is_some() && self.now_and_then();
        node.synthetic = self.rng.one_in(3);
        node.explicit_key = place == Place::Key && self.now_and_then();
        node
    }

    /// A key has no inline comment and no foot, a flow entry no foot, and what lies in a flow collection that is a key no comment.
    fn comments(&mut self, node: &mut YamlNode, place: Place, flow: bool) {
        if self.silent && flow {
            return;
        }
        if self.now_and_then() {
            node.comments.head.push(HeadComment {
                text: self.line().into(),
                below_introducer: self.rng.one_in(2),
            });
        }
        if place != Place::Key && self.now_and_then() {
            node.comments.inline = Some(self.line());
            node.comments.inline_spaces = self.rng.below(4) as u32;
        }
        if place != Place::Key && !flow && self.now_and_then() {
            let foot = self.line();
            node.comments.foot.push(foot);
        }
    }

    fn include(&mut self, node: &mut YamlNode, place: Place, flow: bool) {
        if place == Place::Key || flow || node.anchor.is_some() || !self.rng.one_in(15) {
            return;
        }
        node.source = Some(IncludeSource {
            tag: "!include".to_owned(),
            target: "t.yaml".to_owned(),
            target_file_id: Some(1),
        });
    }
}
