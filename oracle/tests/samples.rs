//! The sample lines of document 01, all of them.

mod common;

use common::{hand, Hand, ALL, NULL};
use oracle::calls::{program, Call, Settings};
use oracle::damage::{tower, tower_place, TOWERS};
use oracle::encode::NullStyle;
use oracle::leaves;

const CHANGED: u8 = 1;
const SYNTHETIC: u8 = 8;

#[test]
fn no_documents() {
    assert_eq!(Hand::default().written(ALL), "");
}

#[test]
fn root_null() {
    let tilde = Call::EmitRoundtripWith(NullStyle::Tilde);
    assert_eq!(hand(NULL).emitted(), "null\n");
    let synthetic = Hand::default().layout(0, SYNTHETIC).bytes(NULL);
    assert_eq!(synthetic.written(tilde), "~\n");
    assert_eq!(hand(NULL).written(tilde), "null\n");
}

#[test]
fn root_with_raw_text() {
    let raw = Hand::default().text(0x07, "0x1F", &[]);
    assert_eq!(raw.clone().plain("31").emitted(), "0x1F");
    assert_eq!(raw.layout(0, CHANGED).plain("31").emitted(), "31\n");
}

#[test]
fn root_literal() {
    let literal = |text: &str| Hand::default().text(0x21, text, &[3]).emitted();
    assert_eq!(literal(""), "|-\n\n");
    assert_eq!(literal("\n"), "|+\n\n");
    assert_eq!(literal("a\n"), "|\n  a\n");
}

#[test]
fn folding() {
    assert_eq!(leaves::folded("aa bb cc", 0, 1, 5), b"aa bb\n cc");
    assert_eq!(leaves::folded("aa bb cc", 0, 1, 4), b"aa\n bb\n cc");
    for width in 0..100 {
        assert_eq!(leaves::folded("a  b", 0, 1, width), b"a  b");
    }
}

#[test]
fn double_quoted_bodies() {
    assert_eq!(leaves::double_quoted_body("\u{1}"), "\\x01");
    assert_eq!(leaves::double_quoted_body("\u{fffe}"), "\\ufffe");
    assert_eq!(leaves::double_quoted_body("\u{85}"), "\u{85}");
}

#[test]
fn flow_sequence_of_a_comma() {
    let sequence = hand(&[0x23, 1, 1, 0]).plain("x,y");
    assert_eq!(sequence.emitted(), "[\"x,y\"]\n");
}

#[test]
fn include_as_a_value() {
    let mapping = hand(&[0x24, 0, 1, 0]).plain("tone");
    let mapping = mapping.include("!include", "t.yaml", Some(1)).bytes(NULL);
    assert_eq!(mapping.emitted(), "tone: !include t.yaml\n");
}

#[test]
fn sequence_under_a_key() {
    let at = |column| {
        let key = hand(&[0x24, 0, 1, 0]).plain("s");
        key.layout(column, 0).bytes(&[0x23, 0, 1, 0]).plain("1")
    };
    assert_eq!(at(0).emitted(), "s:\n- 1\n");
    assert_eq!(at(2).emitted(), "s:\n  - 1\n");
}

#[test]
fn alias_as_a_key() {
    let mapping = hand(&[0x24, 0, 1, 0]).text(0x22, "k", &[]).plain("v");
    assert_eq!(mapping.emitted(), "*k : v\n");
}

#[test]
fn step_and_depth() {
    let step = |indent| {
        Call::EmitRoundtripDump(Settings {
            indent,
            ..Settings::default()
        })
    };
    for kind in TOWERS {
        for flow in [false, true] {
            let of_depth = |depth| {
                let made = tower(kind, depth, flow);
                hand(&made.deck).ask(ALL)
            };
            assert_eq!((of_depth(64).number, of_depth(64).place), (0, 0));
            let refused = of_depth(65);
            assert_eq!((refused.number, refused.place), (6, tower_place(kind, 65)));
        }
    }
    let outcome = hand(NULL).ask(step(17));
    assert_eq!((outcome.number, outcome.place, outcome.length), (1, 0, 0));
    let mapping = hand(&[0x24, 0, 1, 0]).plain("a");
    let nested = mapping.bytes(&[0x24, 0, 1, 0]).plain("b").plain("c");
    let expected = format!("a:\n{}b: c\n", " ".repeat(16));
    assert_eq!(nested.written(step(16)), expected);
}

#[test]
fn the_emit_program() {
    let input = [
        0x10, 0, 0, 0, 0x24, 0, 1, 0, 0x21, 0, 0, 1, 0, 0, 0x21, 1, 0, 1, 0, 0, 0x61, 0x31,
    ];
    assert_eq!(program(&input), b"a: 1\n");
}
