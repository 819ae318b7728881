//! The reader of decks, written from document 01 alone: the trees of a deck, or the first refusal from 3 to 7.
//! Nothing here is shared with the builder, so that each checks the other.

use crate::roundtrip::ast::{HeadComment, IncludeSource, NodeStyle, YamlNode, YamlNodeKind};
use crate::scanner::{ScalarStyle, Span};

pub const MOST_DEPTH: usize = 64;

#[derive(Debug, Clone, Copy, PartialEq, Eq)]
pub struct Refusal {
    pub number: usize,
    pub place: usize,
}

/// The documents of a deck.
pub fn read(deck: &[u8], pool: &[u8]) -> Result<Vec<YamlNode>, Refusal> {
    let mut reader = Reader { deck, pool, at: 0 };
    let mut documents = Vec::new();
    while reader.at < deck.len() {
        documents.push(reader.tree(1)?);
    }
    Ok(documents)
}

struct Reader<'a> {
    deck: &'a [u8],
    pool: &'a [u8],
    at: usize,
}

/// A node record as it stands, before its children.
enum Shape {
    Null,
    Scalar(String, ScalarStyle),
    Alias(String),
    Sequence(NodeStyle, usize),
    Mapping(NodeStyle, usize),
}

fn refuse<T>(number: usize, place: usize) -> Result<T, Refusal> {
    Err(Refusal { number, place })
}

impl<'a> Reader<'a> {
    /// The leading records, the node record and what is below it.
    fn tree(&mut self, depth: usize) -> Result<YamlNode, Refusal> {
        let mut node = YamlNode::new(YamlNodeKind::Null, Span::default());
        let mut last = 0;
        loop {
            let kind = self.kind()?;
            if !(0x01..=0x09).contains(&kind) {
                break;
            }
            self.leading_record(kind, last, &mut node)?;
            last = kind;
        }
        let place = self.at;
        let shape = self.node_record()?;
        // At depth 65 the record itself has been judged first; nothing below it is looked at.
        if depth > MOST_DEPTH {
            return refuse(6, place);
        }
        self.fill(&mut node, shape, depth)?;
        Ok(node)
    }

    /// The kind byte at the cursor. A tree that wants another record where the deck ends is cut short.
    fn kind(&self) -> Result<u8, Refusal> {
        match self.deck.get(self.at) {
            Some(&kind) => Ok(kind),
            None => refuse(7, self.deck.len()),
        }
    }

    /// The body of the record at `place`, and the cursor past it.
    fn body(&mut self, place: usize, length: usize) -> Result<&'a [u8], Refusal> {
        let deck = self.deck;
        match deck.get(place + 1..place + 1 + length) {
            Some(body) => {
                self.at = place + 1 + length;
                Ok(body)
            }
            None => refuse(3, place),
        }
    }

    /// The text that the reference at the front of `field` gives.
    fn text(&self, place: usize, field: &[u8]) -> Result<String, Refusal> {
        let offset = usize::from(field[0]) + 256 * usize::from(field[1]);
        let length = usize::from(field[2]) + 256 * usize::from(field[3]);
        let Some(bytes) = self.pool.get(offset..offset + length) else {
            return refuse(4, place);
        };
        match std::str::from_utf8(bytes) {
            Ok(text) => Ok(text.to_owned()),
            Err(_) => refuse(5, place),
        }
    }

    fn leading_record(&mut self, kind: u8, last: u8, node: &mut YamlNode) -> Result<(), Refusal> {
        let place = self.at;
        let may_repeat = matches!(kind, 0x04 | 0x06 | 0x08);
        if kind < last || (kind == last && !may_repeat) {
            return refuse(3, place);
        }
        match kind {
            0x03 => self.include(place, node),
            0x04 => self.head_comment(place, node),
            0x05 => self.inline_comment(place, node),
            0x09 => self.layout(place, node),
            _ => self.text_record(place, kind, node),
        }
    }

    /// Records 01, 02, 06, 07 and 08, which are a reference and no more.
    fn text_record(&mut self, place: usize, kind: u8, node: &mut YamlNode) -> Result<(), Refusal> {
        let body = self.body(place, 4)?;
        let text = self.text(place, body)?;
        match kind {
            0x01 => node.tag = Some(text),
            0x02 => node.anchor = Some(text),
            0x06 => node.comments.foot.push(text),
            0x07 => node.comments.raw = Some(text),
            _ => node.directives.push(text),
        }
        Ok(())
    }

    fn include(&mut self, place: usize, node: &mut YamlNode) -> Result<(), Refusal> {
        let body = self.body(place, 13)?;
        let id = u32::from_le_bytes([body[9], body[10], body[11], body[12]]);
        let target_file_id = match body[8] {
            0 => None,
            1 => Some(id),
            _ => return refuse(3, place),
        };
        let tag = self.text(place, &body[0..4])?;
        let target = self.text(place, &body[4..8])?;
        node.source = Some(IncludeSource {
            tag,
            target,
            target_file_id,
        });
        Ok(())
    }

    fn head_comment(&mut self, place: usize, node: &mut YamlNode) -> Result<(), Refusal> {
        let body = self.body(place, 5)?;
        let below_introducer = match body[4] {
            0 => false,
            1 => true,
            _ => return refuse(3, place),
        };
        let text = self.text(place, body)?.into();
        node.comments.head.push(HeadComment {
            text,
            below_introducer,
        });
        Ok(())
    }

    fn inline_comment(&mut self, place: usize, node: &mut YamlNode) -> Result<(), Refusal> {
        let body = self.body(place, 5)?;
        node.comments.inline = Some(self.text(place, body)?);
        node.comments.inline_spaces = u32::from(body[4]);
        Ok(())
    }

    fn layout(&mut self, place: usize, node: &mut YamlNode) -> Result<(), Refusal> {
        let body = self.body(place, 5)?;
        let marks = body[4];
        if marks >= 128 {
            return refuse(3, place);
        }
        let column = u32::from(body[2]) + 256 * u32::from(body[3]);
        node.span.column = column;
        node.end_column = column;
        node.comments.blank_before = u32::from(body[0]);
        node.comments.value_pad = u32::from(body[1]);
        node.comments.modified = marks & 1 != 0;
        node.comments.inline_before_value = marks & 2 != 0;
        node.comments.compact = marks & 4 != 0;
        node.synthetic = marks & 8 != 0;
        node.explicit_key = marks & 16 != 0;
        node.explicit_start = marks & 32 != 0;
        node.leading_bom = marks & 64 != 0;
        Ok(())
    }

    fn node_record(&mut self) -> Result<Shape, Refusal> {
        let place = self.at;
        match self.kind()? {
            0x20 => {
                self.body(place, 0)?;
                Ok(Shape::Null)
            }
            0x21 => {
                let body = self.body(place, 5)?;
                let style = scalar_style(body[4], place)?;
                Ok(Shape::Scalar(self.text(place, body)?, style))
            }
            0x22 => {
                let body = self.body(place, 4)?;
                Ok(Shape::Alias(self.text(place, body)?))
            }
            0x23 => {
                let (style, items) = self.collection(place)?;
                Ok(Shape::Sequence(style, items))
            }
            0x24 => {
                let (style, pairs) = self.collection(place)?;
                Ok(Shape::Mapping(style, pairs))
            }
            _ => refuse(3, place),
        }
    }

    fn collection(&mut self, place: usize) -> Result<(NodeStyle, usize), Refusal> {
        let body = self.body(place, 3)?;
        let style = match body[0] {
            0 => NodeStyle::Block,
            1 => NodeStyle::Flow,
            _ => return refuse(3, place),
        };
        Ok((style, usize::from(body[1]) + 256 * usize::from(body[2])))
    }

    /// Reads the children and puts what the record says into the node.
    fn fill(&mut self, node: &mut YamlNode, shape: Shape, depth: usize) -> Result<(), Refusal> {
        node.kind = match shape {
            Shape::Null => YamlNodeKind::Null,
            Shape::Scalar(text, style) => YamlNodeKind::Scalar(text, style),
            Shape::Alias(name) => YamlNodeKind::Alias(name),
            Shape::Sequence(style, count) => {
                node.style = style;
                // No room is reserved by the count: it may say more than the deck holds.
                let mut items = Vec::new();
                for _ in 0..count {
                    items.push(self.tree(depth + 1)?);
                }
                YamlNodeKind::Sequence(items)
            }
            Shape::Mapping(style, count) => {
                node.style = style;
                let mut pairs = Vec::new();
                for _ in 0..count {
                    let key = self.tree(depth + 1)?;
                    pairs.push((key, self.tree(depth + 1)?));
                }
                YamlNodeKind::Mapping(pairs)
            }
        };
        Ok(())
    }
}

fn scalar_style(byte: u8, place: usize) -> Result<ScalarStyle, Refusal> {
    match byte {
        0 => Ok(ScalarStyle::Plain),
        1 => Ok(ScalarStyle::SingleQuoted),
        2 => Ok(ScalarStyle::DoubleQuoted),
        3 => Ok(ScalarStyle::Literal),
        4 => Ok(ScalarStyle::Folded),
        _ => refuse(3, place),
    }
}
