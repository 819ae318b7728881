//! What the Rust does that a port could easily do otherwise, each by its smallest tree. None of it is in the sample lines.

mod common;

use common::{hand, Hand, NULL};
use oracle::calls::{Call, Settings};

const CHANGED: u8 = 1;
const INLINE_BEFORE_VALUE: u8 = 2;
const SYNTHETIC: u8 = 8;
const BOM: u8 = 64;

const ONE_ITEM: [u8; 4] = [0x23, 0, 1, 0];
const ONE_FLOW_ITEM: [u8; 4] = [0x23, 1, 1, 0];
const ONE_PAIR: [u8; 4] = [0x24, 0, 1, 0];
const ONE_FLOW_PAIR: [u8; 4] = [0x24, 1, 1, 0];

fn width(width: usize) -> Call {
    Call::EmitRoundtripDump(Settings {
        width,
        ..Settings::default()
    })
}

fn step(indent: usize) -> Call {
    Call::EmitRoundtripDump(Settings {
        indent,
        ..Settings::default()
    })
}

#[test]
fn literals_in_flow_are_quoted_but_never_folded() {
    let of_style = |style| hand(&ONE_FLOW_ITEM).text(0x21, "a b", &[style]);
    assert_eq!(of_style(2).written(width(1)), "[\"a\n b\"]\n");
    assert_eq!(of_style(3).written(width(1)), "[\"a b\"]\n");
    assert_eq!(of_style(4).written(width(1)), "[\"a b\"]\n");
}

#[test]
fn a_byte_order_mark_counts_three_columns() {
    let quoted = |marks| Hand::default().layout(0, marks).text(0x21, "a b", &[2]);
    assert_eq!(quoted(0).written(width(6)), "\"a b\"\n");
    assert_eq!(quoted(BOM).written(width(6)), "\u{feff}\"a\n   b\"\n");
}

#[test]
fn the_foot_of_an_anchored_item_indents_by_two_whatever_the_step() {
    let item = hand(&ONE_ITEM).text(0x02, "a", &[]).text(0x06, "f", &[]);
    let item = item.bytes(&ONE_PAIR).plain("k").plain("v");
    assert_eq!(item.written(step(4)), "- &a\n    k: v\n  # f\n");
}

#[test]
fn only_a_block_scalar_key_writes_its_inline_comment() {
    let key = |style| {
        let key = hand(&ONE_PAIR).text(0x05, "c", &[1]);
        key.text(0x21, "k", &[style]).plain("v").emitted()
    };
    assert_eq!(key(0), "k: v\n");
    assert_eq!(key(3), "? |- # c\n  k\n: v\n");
    // In flow a comment on a key is not written, but it breaks the lines. At the root these stand one step further in.
    let flow = hand(&ONE_FLOW_PAIR).text(0x05, "c", &[1]);
    assert_eq!(flow.plain("k").plain("v").emitted(), "{\n    k: v\n  }\n");
}

#[test]
fn the_first_pair_behind_a_dash_loses_its_head_comment() {
    let item = hand(&ONE_ITEM).bytes(&ONE_PAIR).text(0x04, "h", &[0]);
    assert_eq!(item.plain("k").plain("v").emitted(), "- k: v\n");
}

#[test]
fn comments_of_an_include_go_to_both_files() {
    let item = hand(&ONE_ITEM).include("!include", "a", Some(1));
    let item = item.text(0x04, "h", &[0]).layout(0, CHANGED).bytes(NULL);
    assert_eq!(item.emitted(), "# h\n- !include a\n");
    let file = item.written(Call::CollectChangedIncludeChanges);
    assert_eq!(file, "# h\nnull\n");
}

#[test]
fn a_comment_before_the_value_is_written_once() {
    let value = hand(&ONE_PAIR).plain("k").text(0x05, "c", &[1]);
    let value = value.layout(0, INLINE_BEFORE_VALUE);
    let literal = value.clone().text(0x21, "a\n", &[3]);
    assert_eq!(literal.emitted(), "k: # c\n  |\n  a\n");
    // A comment inside comes between, and yet the outer one is not written again.
    let flow = value.bytes(&ONE_FLOW_ITEM).text(0x05, "d", &[1]).plain("x");
    assert_eq!(flow.emitted(), "k: # c\n  [\n    x # d\n  ]\n");
}

#[test]
fn an_empty_synthetic_null_is_empty_only_below_something() {
    let empty = Call::EmitRoundtripWith(oracle::encode::NullStyle::Empty);
    let null = |start: &[u8]| hand(start).layout(0, SYNTHETIC).bytes(NULL).written(empty);
    assert_eq!(null(&[]), "null\n");
    assert_eq!(null(&ONE_ITEM), "-\n");
    assert_eq!(null(&ONE_FLOW_ITEM), "[null]\n");
    // With a tag the root is empty too.
    let tagged = Hand::default().text(0x01, "!t", &[]);
    let tagged = tagged.layout(0, SYNTHETIC).bytes(NULL);
    assert_eq!(tagged.written(empty), "!t\n");
}
