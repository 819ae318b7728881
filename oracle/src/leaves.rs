//! The leaves of the Rust, which are private to its crate, as plain functions.

use crate::roundtrip::ast::{NodeStyle, YamlNode, YamlNodeKind};
use crate::roundtrip::emit;
use crate::scanner::{ScalarStyle, Span};
use crate::{emit_util, encode};

pub fn is_non_printable(character: char) -> bool {
    emit_util::is_non_printable(character)
}

pub fn double_quoted_body(value: &str) -> String {
    emit_util::double_quoted_body(value)
}

pub fn single_quoted_body(value: &str) -> String {
    emit_util::single_quoted_body(value)
}

pub fn single_quotable(value: &str, double_quotes: bool) -> bool {
    emit_util::single_quotable(value, double_quotes)
}

pub fn single_capable(value: &str) -> bool {
    emit_util::single_capable(value)
}

pub fn use_literal_block(value: &str) -> bool {
    emit_util::use_literal_block(value)
}

pub fn has_breakable_space(value: &str) -> bool {
    encode::has_breakable_space(value)
}

pub fn current_column(written: &[u8]) -> usize {
    emit_util::current_column(written)
}

/// The marker (`|` or `>`) and its chomping mark, without the line break after them.
pub fn block_scalar_header(value: &str, marker: u8) -> Vec<u8> {
    let mut written = Vec::new();
    emit_util::push_block_scalar_header(&mut written, value, marker);
    written
}

/// The line break that ends the header's line, then the lines.
pub fn block_scalar_body(value: &str, body_indent: usize) -> Vec<u8> {
    let mut written = Vec::new();
    emit_util::push_block_scalar_body(&mut written, value, body_indent);
    written
}

/// A body folded at `width`, its first byte standing at `start_column` and later lines at `cont_indent`.
pub fn folded(content: &str, start_column: usize, cont_indent: usize, width: usize) -> Vec<u8> {
    let mut written = vec![b'x'; start_column];
    emit_util::push_folded(&mut written, content, cont_indent, width);
    written.split_off(start_column)
}

/// Whether a plain scalar is quoted as the one item of a flow sequence: the tests for that are private to emit.rs.
pub fn quoted_in_flow(value: &str) -> bool {
    let scalar = YamlNodeKind::Scalar(value.to_owned(), ScalarStyle::Plain);
    let items = vec![YamlNode::new(scalar, Span::default())];
    let sequence = YamlNode::new(YamlNodeKind::Sequence(items), Span::default());
    let written = emit::emit_roundtrip(&sequence.with_style(NodeStyle::Flow));
    written != format!("[{value}]\n").into_bytes()
}
