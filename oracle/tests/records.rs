//! Each record of document 01 against the field of the Rust's node that it stands for, and the order of every two.

mod common;

use common::{hand, Hand, NULL};
use oracle::judge::read;
use oracle::roundtrip::ast::{NodeStyle, YamlNode, YamlNodeKind};
use oracle::scanner::ScalarStyle;

fn one(made: &Hand) -> YamlNode {
    let mut documents = read(&made.deck, &made.pool).unwrap();
    assert_eq!(documents.len(), 1);
    documents.remove(0)
}

#[test]
fn texts() {
    let made = Hand::default().text(0x01, "t", &[]).text(0x02, "a", &[]);
    let made = made.text(0x04, "h", &[0]).text(0x04, "b", &[1]);
    let made = made.text(0x05, "i", &[200]).text(0x06, "f", &[]);
    let made = made.text(0x06, "", &[]).text(0x07, "r", &[]);
    let made = made.text(0x08, "d", &[]).text(0x08, "e", &[]).bytes(NULL);
    let node = one(&made);
    assert_eq!(
        (node.tag.as_deref(), node.anchor.as_deref()),
        (Some("t"), Some("a"))
    );
    let heads = node.comments.head.iter();
    let heads: Vec<_> = heads
        .map(|head| (&*head.text, head.below_introducer))
        .collect();
    assert_eq!(heads, [("h", false), ("b", true)]);
    let inline = (node.comments.inline.as_deref(), node.comments.inline_spaces);
    assert_eq!(inline, (Some("i"), 200));
    assert_eq!(node.comments.foot, ["f", ""]);
    assert_eq!(node.comments.raw.as_deref(), Some("r"));
    assert_eq!(node.directives, ["d", "e"]);
}

#[test]
fn a_present_empty_text_is_present() {
    let made = Hand::default().text(0x01, "", &[]).text(0x05, "", &[0]);
    let node = one(&made.text(0x07, "", &[]).bytes(NULL));
    assert_eq!(node.tag.as_deref(), Some(""));
    assert_eq!(node.comments.inline.as_deref(), Some(""));
    assert_eq!(node.comments.raw.as_deref(), Some(""));
    assert!(node.anchor.is_none());
}

#[test]
fn includes() {
    let source = |present| {
        let mut made = hand(&[0x03, 0, 0, 1, 0, 1, 0, 2, 0, present, 1, 2, 3, 4, 0x20]);
        made.pool = b"abc".to_vec();
        one(&made).source.unwrap()
    };
    assert_eq!((&*source(1).tag, &*source(1).target), ("a", "bc"));
    assert_eq!(source(1).target_file_id, Some(0x0403_0201));
    assert_eq!(source(0).target_file_id, None);
}

#[test]
fn layouts() {
    let node = one(&hand(&[0x09, 1, 2, 3, 4, 0, 0x20]));
    assert_eq!(
        (node.comments.blank_before, node.comments.value_pad),
        (1, 2)
    );
    assert_eq!(node.span.column, 0x0403);
    for bit in 0..7 {
        let node = one(&hand(&[0x09, 0, 0, 0, 0, 1 << bit, 0x20]));
        let marks = [
            node.comments.modified,
            node.comments.inline_before_value,
            node.comments.compact,
            node.synthetic,
            node.explicit_key,
            node.explicit_start,
            node.leading_bom,
        ];
        let set: Vec<usize> = (0..7).filter(|&mark| marks[mark]).collect();
        assert_eq!(set, [bit]);
    }
}

#[test]
fn nodes() {
    let styles = [
        ScalarStyle::Plain,
        ScalarStyle::SingleQuoted,
        ScalarStyle::DoubleQuoted,
        ScalarStyle::Literal,
        ScalarStyle::Folded,
    ];
    for (byte, expected) in styles.into_iter().enumerate() {
        let node = one(&Hand::default().text(0x21, "s", &[byte as u8]));
        let YamlNodeKind::Scalar(text, style) = node.kind else {
            panic!("no scalar");
        };
        assert_eq!((&*text, style), ("s", expected));
    }
    for (byte, expected) in [(0, NodeStyle::Block), (1, NodeStyle::Flow)] {
        for kind in [0x23, 0x24] {
            assert_eq!(one(&hand(&[kind, byte, 0, 0])).style, expected);
        }
    }
    // A key stands before its value, and a count has two bytes.
    let node = one(&hand(&[0x24, 0, 1, 0]).text(0x22, "k", &[]).bytes(NULL));
    let YamlNodeKind::Mapping(pairs) = node.kind else {
        panic!("no mapping");
    };
    assert!(matches!(pairs[0], (ref key, _) if matches!(key.kind, YamlNodeKind::Alias(_))));
    let node = one(&hand(&[0x23, 0, 1, 1]).bytes(&[0x20; 257]));
    assert!(matches!(node.kind, YamlNodeKind::Sequence(items) if items.len() == 257));
}

/// A leading record of zeros, which is well formed over any pool.
fn zeros(kind: u8) -> Vec<u8> {
    let length = match kind {
        0x03 => 13,
        0x04 | 0x05 | 0x09 => 5,
        _ => 4,
    };
    [vec![kind], vec![0; length]].concat()
}

#[test]
fn the_order_of_every_two() {
    for first in 1..=9 {
        for second in 1..=9 {
            let made = hand(&zeros(first)).bytes(&zeros(second)).bytes(NULL);
            let repeats = first == second && matches!(first, 0x04 | 0x06 | 0x08);
            let expected = if first < second || repeats {
                (0, 0)
            } else {
                (3, zeros(first).len())
            };
            assert_eq!(made.refusal(), expected, "{first} {second}");
        }
    }
}
