//! The example of examples/: the recipe of a threshold screen, with comments and one included file, as the emit program takes it.

use crate::deck::{build, Deck, Pooling};
use crate::random::Rng;
use crate::roundtrip::ast::{HeadComment, IncludeSource, NodeStyle, YamlNode, YamlNodeKind};
use crate::scanner::{ScalarStyle, Span};

/// The recipe's deck and pool.
pub fn deck() -> Deck {
    build(&[screen()], Pooling::Shared, &mut Rng::new(1))
}

/// What stands on the program's standard input: the deck's length, the deck, the pool.
pub fn input() -> Vec<u8> {
    let made = deck();
    let length = u32::try_from(made.deck.len()).expect("A deck's length must fit into four bytes.");
    [&length.to_le_bytes()[..], &made.deck, &made.pool].concat()
}

fn screen() -> YamlNode {
    let mut angle = plain("45");
    inline(&mut angle, "degrees");
    let mut tile = numbers(&["8", "8"]);
    inline(&mut tile, "dots");
    let mut down = plain("3");
    inline(&mut down, "one band lower since the last proof");
    let origin = mapping(vec![("x", plain("0")), ("y", down)]);
    let rows = [["12", "4", "6", "14"], ["10", "0", "2", "8"]];
    let thresholds = YamlNodeKind::Sequence(rows.iter().map(|row| numbers(row)).collect());
    let mut screen = mapping(vec![
        ("name", quoted("45° clustered dot")),
        ("tile", tile),
        ("angle", angle),
        ("origin", origin),
        ("thresholds", node(thresholds)),
        ("engine", engine()),
    ]);
    if let YamlNodeKind::Mapping(pairs) = &mut screen.kind {
        head(&mut pairs[0].0, "Screen for a monochrome laser of 600 dpi.");
        head(&mut pairs[3].0, "Where the tile's first dot stands.");
        pairs[3].0.comments.blank_before = 1;
        head(&mut pairs[5].0, "What is in this file is the engine's.");
        pairs[5].0.comments.blank_before = 1;
    }
    screen
}

/// What the included file holds.
fn engine() -> YamlNode {
    let mut engine = mapping(vec![("dpi", plain("600")), ("bands", plain("16"))]);
    engine.source = Some(IncludeSource {
        tag: "!include".to_owned(),
        target: "engine.yaml".to_owned(),
        target_file_id: Some(1),
    });
    engine
}

fn node(kind: YamlNodeKind) -> YamlNode {
    YamlNode::new(kind, Span::default())
}

fn plain(text: &str) -> YamlNode {
    node(YamlNodeKind::Scalar(text.to_owned(), ScalarStyle::Plain))
}

fn quoted(text: &str) -> YamlNode {
    let style = ScalarStyle::DoubleQuoted;
    node(YamlNodeKind::Scalar(text.to_owned(), style))
}

fn numbers(texts: &[&str]) -> YamlNode {
    let mut made = node(YamlNodeKind::Sequence(
        texts.iter().map(|text| plain(text)).collect(),
    ));
    made.style = NodeStyle::Flow;
    made
}

fn mapping(pairs: Vec<(&str, YamlNode)>) -> YamlNode {
    let pairs = pairs.into_iter().map(|(key, value)| (plain(key), value));
    node(YamlNodeKind::Mapping(pairs.collect()))
}

fn inline(node: &mut YamlNode, text: &str) {
    node.comments.inline = Some(text.to_owned());
    node.comments.inline_spaces = 2;
}

fn head(node: &mut YamlNode, text: &str) {
    node.comments.head.push(HeadComment {
        text: text.into(),
        below_introducer: false,
    });
}
