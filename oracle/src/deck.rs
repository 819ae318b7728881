//! The builder of decks: trees of the Rust's nodes become the records and the pool that document 01 describes.

use crate::random::Rng;
use crate::roundtrip::ast::{Comments, IncludeSource, NodeStyle, YamlNode, YamlNodeKind};
use crate::scanner::ScalarStyle;
use std::collections::HashMap;

#[derive(Debug, Clone, PartialEq, Eq, Default)]
pub struct Deck {
    pub deck: Vec<u8>,
    pub pool: Vec<u8>,
}

/// How texts come to lie in the pool. The trees that are read back do not depend on it.
#[derive(Debug, Clone, Copy, PartialEq, Eq)]
pub enum Pooling {
    /// One after another, in the order of the records.
    InOrder,
    /// Equal texts lie once.
    Shared,
    /// A text lies inside what is there already, or begins with the pool's last bytes, where that fits.
    Overlapping,
    /// With bytes between that no record refers to, not always UTF-8.
    Garbage,
}

pub const POOLINGS: [Pooling; 4] = [
    Pooling::InOrder,
    Pooling::Shared,
    Pooling::Overlapping,
    Pooling::Garbage,
];

/// The length of a record's body; none for a byte that is no kind.
pub fn body_length(kind: u8) -> Option<usize> {
    match kind {
        0x20 => Some(0),
        0x23 | 0x24 => Some(3),
        0x01 | 0x02 | 0x06 | 0x07 | 0x08 | 0x22 => Some(4),
        0x04 | 0x05 | 0x09 | 0x21 => Some(5),
        0x03 => Some(13),
        _ => None,
    }
}

/// A deck of these documents. It panics where a number or a text does not fit into its field.
pub fn build(docs: &[YamlNode], pooling: Pooling, rng: &mut Rng) -> Deck {
    let mut builder = Builder {
        made: Deck::default(),
        placed: HashMap::new(),
        pooling,
        rng,
    };
    for node in docs {
        builder.tree(node);
    }
    if pooling == Pooling::Garbage {
        builder.garbage();
    }
    builder.made
}

struct Builder<'a> {
    made: Deck,
    placed: HashMap<Vec<u8>, usize>,
    pooling: Pooling,
    rng: &'a mut Rng,
}

impl Builder<'_> {
    fn tree(&mut self, node: &YamlNode) {
        self.optional_text(0x01, &node.tag);
        self.optional_text(0x02, &node.anchor);
        if let Some(source) = &node.source {
            self.include(source);
        }
        self.comments(&node.comments);
        for directive in &node.directives {
            self.text_record(0x08, directive);
        }
        self.layout(node);
        self.node_record(node);
    }

    fn include(&mut self, source: &IncludeSource) {
        self.text_record(0x03, &source.tag);
        self.text(&source.target);
        match source.target_file_id {
            Some(id) => {
                self.made.deck.push(1);
                self.made.deck.extend_from_slice(&id.to_le_bytes());
            }
            None => {
                // The id of an include without one is ignored: any four bytes may stand there.
                let garbage = [(); 4].map(|()| self.rng.byte());
                self.made.deck.push(0);
                self.made.deck.extend_from_slice(&garbage);
            }
        }
    }

    fn comments(&mut self, comments: &Comments) {
        for head in &comments.head {
            self.text_record(0x04, &head.text);
            self.made.deck.push(u8::from(head.below_introducer));
        }
        if let Some(inline) = &comments.inline {
            self.text_record(0x05, inline);
            self.made.deck.push(byte(comments.inline_spaces));
        }
        for foot in &comments.foot {
            self.text_record(0x06, foot);
        }
        self.optional_text(0x07, &comments.raw);
    }

    /// Left out when all is zero, but not always: a record of zeros says the same.
    fn layout(&mut self, node: &YamlNode) {
        let column = u16::try_from(node.span.column).expect("A column must fit into two bytes.");
        let body = [
            byte(node.comments.blank_before),
            byte(node.comments.value_pad),
            column.to_le_bytes()[0],
            column.to_le_bytes()[1],
            marks(node),
        ];
        if body != [0; 5] || self.rng.chance(8) {
            self.made.deck.push(0x09);
            self.made.deck.extend_from_slice(&body);
        }
    }

    fn node_record(&mut self, node: &YamlNode) {
        match &node.kind {
            YamlNodeKind::Null => self.made.deck.push(0x20),
            YamlNodeKind::Scalar(text, style) => {
                self.text_record(0x21, text);
                self.made.deck.push(style_byte(*style));
            }
            YamlNodeKind::Alias(name) => self.text_record(0x22, name),
            YamlNodeKind::Sequence(items) => {
                self.collection(0x23, node.style, items.len());
                for item in items {
                    self.tree(item);
                }
            }
            YamlNodeKind::Mapping(pairs) => {
                self.collection(0x24, node.style, pairs.len());
                for (key, value) in pairs {
                    self.tree(key);
                    self.tree(value);
                }
            }
        }
    }

    fn collection(&mut self, kind: u8, style: NodeStyle, count: usize) {
        let form = u8::from(style == NodeStyle::Flow);
        self.made.deck.extend_from_slice(&[kind, form]);
        self.number(count);
    }

    fn optional_text(&mut self, kind: u8, text: &Option<String>) {
        if let Some(text) = text {
            self.text_record(kind, text);
        }
    }

    fn text_record(&mut self, kind: u8, text: &str) {
        self.made.deck.push(kind);
        self.text(text);
    }

    /// A reference to a text, which is put into the pool where it is not there yet.
    fn text(&mut self, text: &str) {
        let offset = self.offset_of(text.as_bytes());
        self.number(offset);
        self.number(text.len());
    }

    fn number(&mut self, number: usize) {
        let number = u16::try_from(number).expect("A number of a record must fit into two bytes.");
        self.made.deck.extend_from_slice(&number.to_le_bytes());
    }

    fn offset_of(&mut self, text: &[u8]) -> usize {
        match self.pooling {
            Pooling::InOrder => self.append(text, 0),
            Pooling::Shared => {
                if let Some(&offset) = self.placed.get(text) {
                    return offset;
                }
                let offset = self.append(text, 0);
                self.placed.insert(text.to_vec(), offset);
                offset
            }
            Pooling::Overlapping => match find(&self.made.pool, text) {
                Some(offset) => offset,
                None => self.append(text, overlap(&self.made.pool, text)),
            },
            // An empty text may lie anywhere, also inside a character.
            Pooling::Garbage if text.is_empty() => self.rng.below(self.made.pool.len() + 1),
            Pooling::Garbage => {
                self.garbage();
                self.append(text, 0)
            }
        }
    }

    /// Puts a text at the pool's end, its first `shared` bytes lying there already.
    fn append(&mut self, text: &[u8], shared: usize) -> usize {
        let offset = self.made.pool.len() - shared;
        self.made.pool.extend_from_slice(&text[shared..]);
        offset
    }

    fn garbage(&mut self) {
        for _ in 0..self.rng.below(5) {
            let byte = self.rng.byte();
            self.made.pool.push(byte);
        }
    }
}

fn byte(number: u32) -> u8 {
    u8::try_from(number).expect("A count of lines or spaces must fit into one byte.")
}

fn marks(node: &YamlNode) -> u8 {
    let marks = [
        node.comments.modified,
        node.comments.inline_before_value,
        node.comments.compact,
        node.synthetic,
        node.explicit_key,
        node.explicit_start,
        node.leading_bom,
    ];
    marks
        .iter()
        .enumerate()
        .map(|(bit, &mark)| u8::from(mark) << bit)
        .sum()
}

fn style_byte(style: ScalarStyle) -> u8 {
    match style {
        ScalarStyle::Plain => 0,
        ScalarStyle::SingleQuoted => 1,
        ScalarStyle::DoubleQuoted => 2,
        ScalarStyle::Literal => 3,
        ScalarStyle::Folded => 4,
    }
}

fn find(pool: &[u8], text: &[u8]) -> Option<usize> {
    (0..=pool.len()).find(|&offset| pool[offset..].starts_with(text))
}

/// How many of the pool's last bytes are the text's first.
fn overlap(pool: &[u8], text: &[u8]) -> usize {
    (0..=text.len().min(pool.len()))
        .rev()
        .find(|&shared| pool.ends_with(&text[..shared]))
        .unwrap_or(0)
}
