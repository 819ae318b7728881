//! Decks by hand, record by record, and short ways to ask for one part of an outcome.
#![allow(dead_code)]

use oracle::calls::{outcome, Call, Change, Lent, Outcome};
use oracle::encode::NullStyle;

pub const ALL: Call = Call::EmitRoundtripAllWith(NullStyle::Null);

pub const NULL: &[u8] = &[0x20];

#[derive(Clone, Default)]
pub struct Hand {
    pub deck: Vec<u8>,
    pub pool: Vec<u8>,
}

/// A hand that begins with these bytes of the deck.
pub fn hand(bytes: &[u8]) -> Hand {
    Hand::default().bytes(bytes)
}

impl Hand {
    pub fn bytes(mut self, bytes: &[u8]) -> Hand {
        self.deck.extend_from_slice(bytes);
        self
    }

    pub fn reference(self, offset: u16, length: u16) -> Hand {
        let (offset, length) = (offset.to_le_bytes(), length.to_le_bytes());
        self.bytes(&offset).bytes(&length)
    }

    /// A kind, a reference to a text put at the pool's end, and what follows them in the record.
    pub fn text(mut self, kind: u8, text: impl AsRef<[u8]>, rest: &[u8]) -> Hand {
        let offset = self.pool.len() as u16;
        let text = text.as_ref();
        self.pool.extend_from_slice(text);
        self.bytes(&[kind])
            .reference(offset, text.len() as u16)
            .bytes(rest)
    }

    pub fn include(mut self, tag: &str, target: &str, id: Option<u8>) -> Hand {
        let start = self.pool.len() as u16;
        self.pool.extend_from_slice(tag.as_bytes());
        self.pool.extend_from_slice(target.as_bytes());
        let middle = start + tag.len() as u16;
        self.bytes(&[0x03])
            .reference(start, tag.len() as u16)
            .reference(middle, target.len() as u16)
            .bytes(&[u8::from(id.is_some()), id.unwrap_or(7), 0, 0, 0])
    }

    pub fn plain(self, text: &str) -> Hand {
        self.text(0x21, text, &[0])
    }

    pub fn layout(self, column: u8, marks: u8) -> Hand {
        self.bytes(&[0x09, 0, 0, column, 0, marks])
    }

    pub fn lent(&self, output: usize, list: usize) -> Lent {
        let change = Change {
            id: 9,
            start: 9,
            length: 9,
        };
        Lent {
            deck: self.deck.clone(),
            pool: self.pool.clone(),
            output: vec![0xaa; output],
            list: vec![change; list],
        }
    }

    /// The outcome with ample room.
    pub fn ask(&self, call: Call) -> Outcome {
        let output = if call.is_lent_output() { 9000 } else { 0 };
        let list = if call.is_lent_list() { 9 } else { 0 };
        outcome(&call, &self.lent(output, list))
    }

    /// The bytes of an answered call with ample room.
    pub fn written(&self, call: Call) -> String {
        let outcome = self.ask(call);
        assert_eq!((outcome.number, outcome.place), (0, 0));
        String::from_utf8(outcome.output[..outcome.length].to_vec()).unwrap()
    }

    /// The bytes under plain settings.
    pub fn emitted(&self) -> String {
        self.written(Call::EmitRoundtrip)
    }

    /// Number and place of the call that takes any number of documents.
    pub fn refusal(&self) -> (usize, usize) {
        let outcome = self.ask(ALL);
        (outcome.number, outcome.place)
    }
}
