//! The kinds of difference between a tree and what a YAML reader sees of its bytes. Each is told by the smallest case that shows it, and is
//! named by words that stand in docs/DIFFERENCES.md.

use crate::calls::Call;
use crate::roundtrip::ast::{NodeStyle, YamlNode, YamlNodeKind};
use crate::scanner::ScalarStyle;
use crate::shrink::Case;

pub struct Kind {
    /// Words of docs/DIFFERENCES.md.
    pub words: &'static str,
    /// The readers that show it; none named: all.
    pub readers: &'static [&'static str],
    pub shows: fn(&Case, &str) -> bool,
}

pub const KINDS: &[Kind] = &[
    Kind {
        words: "Nulls with a tag",
        readers: &[],
        shows: |case, _| any(case, &|node| node.tag.is_some() && is_empty(node)),
    },
    Kind {
        words: "A keep-chomped block takes the blank lines of the node after it",
        readers: &[],
        shows: |case, text| {
            text.contains("+\n\n\n") && any(case, &|node| node.comments.blank_before > 0)
        },
    },
    Kind {
        words: "At the root, a block of nothing but line breaks has no indent of its own",
        readers: &[],
        shows: |case, text| case.documents.iter().any(is_empty_block) && text.contains("\n\n"),
    },
    Kind {
        words: "With a step of 1 it stands in the column of a block scalar",
        readers: &[],
        shows: |case, _| has_step_1(case) && any(case, &is_block) && any(case, &has_foot),
    },
    Kind {
        words: "take U+0085, U+2028 and U+2029 for line breaks",
        readers: &["PyYAML", "ruamel.yaml"],
        shows: |_, text| text.contains(['\u{85}', '\u{2028}', '\u{2029}']),
    },
    Kind {
        words: "PyYAML and ruamel.yaml read `a`",
        readers: &["PyYAML", "ruamel.yaml"],
        shows: |case, text| !text.ends_with('\n') && any(case, &|node| node.comments.raw.is_some()),
    },
    Kind {
        words: "fy-tool reads three apostrophes",
        readers: &["fy-tool"],
        shows: |_, text| text.contains("''''''"),
    },
    Kind {
        words: "fy-tool rejects an empty item of a sequence that stands in its key's column",
        readers: &["fy-tool"],
        shows: |_, text| text.contains(":\n-"),
    },
    Kind {
        words: "fy-tool rejects a root block scalar that has an anchor or a tag",
        readers: &["fy-tool"],
        shows: |case, _| {
            case.documents
                .iter()
                .any(|root| has_property(root) && is_block(root))
        },
    },
    Kind {
        words: "fy-tool takes the line after an empty block scalar for its content",
        readers: &["fy-tool"],
        shows: |case, text| any(case, &is_empty_block) && text.contains("-\n\n"),
    },
    Kind {
        words: "fy-tool reads two pairs",
        readers: &["fy-tool"],
        shows: |_, text| text.contains("?\n") && text.contains("  ? "),
    },
    Kind {
        words: "node-yaml rejects a byte order mark before a block sequence",
        readers: &["node-yaml"],
        shows: |case, _| {
            case.documents
                .iter()
                .any(|root| root.leading_bom && is_block_sequence(root))
        },
    },
    Kind {
        words: "node-yaml takes `[]` as the first value",
        readers: &["node-yaml"],
        shows: |_, text| text.contains(":\n[]:") || text.contains(":\n{}:"),
    },
];

/// A kind whose words do not stand in the page.
pub fn unnamed(page: &str) -> Option<&'static Kind> {
    let words: Vec<&str> = page.split_whitespace().collect();
    let page = words.join(" ");
    KINDS.iter().find(|kind| !page.contains(kind.words))
}

/// The kind that the smallest case of a difference shows, if it is a known one.
pub fn of(reader: &str, case: &Case, bytes: &[u8]) -> Option<&'static Kind> {
    let text = String::from_utf8_lossy(bytes);
    KINDS.iter().find(|kind| {
        let asked = kind.readers.is_empty() || kind.readers.contains(&reader);
        asked && (kind.shows)(case, &text)
    })
}

fn any(case: &Case, test: &dyn Fn(&YamlNode) -> bool) -> bool {
    case.documents.iter().any(|document| below(document, test))
}

fn below(node: &YamlNode, test: &dyn Fn(&YamlNode) -> bool) -> bool {
    test(node)
        || match &node.kind {
            YamlNodeKind::Sequence(items) => items.iter().any(|item| below(item, test)),
            YamlNodeKind::Mapping(pairs) => pairs
                .iter()
                .any(|(key, value)| below(key, test) || below(value, test)),
            _ => false,
        }
}

fn has_step_1(case: &Case) -> bool {
    matches!(case.call, Call::EmitRoundtripDump(settings) if settings.indent == 1)
}

fn has_foot(node: &YamlNode) -> bool {
    !node.comments.foot.is_empty()
}

fn has_property(node: &YamlNode) -> bool {
    node.anchor.is_some() || node.tag.is_some()
}

fn is_empty(node: &YamlNode) -> bool {
    match &node.kind {
        YamlNodeKind::Null => true,
        YamlNodeKind::Scalar(text, style) => *style == ScalarStyle::Plain && text.is_empty(),
        _ => false,
    }
}

fn is_block(node: &YamlNode) -> bool {
    matches!(
        node.kind,
        YamlNodeKind::Scalar(_, ScalarStyle::Literal | ScalarStyle::Folded)
    )
}

/// A block scalar of nothing but line breaks.
fn is_empty_block(node: &YamlNode) -> bool {
    match &node.kind {
        YamlNodeKind::Scalar(text, _) => is_block(node) && text.chars().all(|c| c == '\n'),
        _ => false,
    }
}

fn is_block_sequence(node: &YamlNode) -> bool {
    let full = matches!(&node.kind, YamlNodeKind::Sequence(items) if !items.is_empty());
    full && node.style == NodeStyle::Block
}
