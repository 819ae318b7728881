//! Includes for the comparison with the archive: random trees in which they stand at every place, and decks with as many of them as fit.

use crate::calls::MOST_DECK;
use crate::deck::{build, Deck, POOLINGS};
use crate::extremes::{collection, made, record, whole, Extreme, LONGEST};
use crate::judge::MOST_DEPTH;
use crate::random::trees::{self, Mood};
use crate::random::Rng;
use crate::roundtrip::ast::YamlNode;

/// A mood with many includes and, from case to case, few or many changed marks, keys that are collections, and flow.
pub fn mood(rng: &mut Rng) -> Mood {
    let mut mood = Mood::draw(rng);
    mood.include = rng.one_of(&[20, 40, 60, 80]);
    mood.changed = rng.one_of(&[0, 2, 10, 50]);
    mood.flow = rng.one_of(&[0, 0, 15, 50]);
    mood.odd_key = rng.one_of(&[0, 30, 70, 100]);
    mood
}

/// One to three documents with many includes.
pub fn documents(rng: &mut Rng) -> Vec<YamlNode> {
    let mood = mood(rng);
    let count = rng.one_of(&[1, 1, 1, 1, 2, 3]);
    (0..count)
        .map(|_| {
            let (nodes, longest) = (rng.between(1, 20), rng.one_of(&[2, 8, 16]));
            let mut root = trees::grow(rng, &mood, nodes, longest);
            fewer_marks(rng, &mut root);
            root
        })
        .collect()
}

/// A deck of such documents.
pub fn deck(rng: &mut Rng) -> Deck {
    let documents = documents(rng);
    let pooling = rng.one_of(&POOLINGS);
    build(&documents, pooling, rng)
}

/// In one of three cases all changed marks but one are taken away, so that it alone decides.
fn fewer_marks(rng: &mut Rng, root: &mut YamlNode) {
    if !rng.one_in(3) {
        return;
    }
    let mut nodes = 0;
    root.each_below(&mut |_| nodes += 1);
    let kept = rng.below(nodes);
    let mut number = 0;
    root.each_below(&mut |node| {
        node.comments.modified = number == kept;
        number += 1;
    });
}

/// Every node of a tree, in the order of the deck.
pub trait EachBelow {
    fn each_below(&mut self, visit: &mut impl FnMut(&mut YamlNode));
}

impl EachBelow for YamlNode {
    fn each_below(&mut self, visit: &mut impl FnMut(&mut YamlNode)) {
        use crate::roundtrip::ast::YamlNodeKind::{Mapping, Sequence};
        visit(self);
        match &mut self.kind {
            Sequence(items) => items.iter_mut().for_each(|item| item.each_below(visit)),
            Mapping(pairs) => {
                for (key, value) in pairs {
                    key.each_below(visit);
                    value.each_below(visit);
                }
            }
            _ => {}
        }
    }
}

/// The layout record that is only a changed mark.
const CHANGED: [u8; 6] = [0x09, 0, 0, 0, 0, 1];
const NULL: u8 = 0x20;

/// An include record of 14 bytes, with this id or none.
fn include(id: Option<u32>) -> Vec<u8> {
    let mut made = record(0x03, 1, &whole(1));
    made.push(u8::from(id.is_some()));
    made.extend(id.unwrap_or(7).to_le_bytes());
    made
}

/// How one include stands in the other.
#[derive(Clone, Copy, PartialEq)]
enum Way {
    Item,
    Value,
    Key,
}

/// What a tower of includes is made of. The innermost node is `core`.
struct Nest {
    way: Way,
    depth: usize,
    flow: bool,
    ids: bool,
    all_changed: bool,
    core: Vec<u8>,
}

impl Nest {
    fn new(way: Way, depth: usize) -> Nest {
        Nest {
            way,
            depth,
            flow: false,
            ids: true,
            all_changed: true,
            core: vec![NULL],
        }
    }

    /// The innermost include is changed in any case.
    fn deck(&self) -> Vec<u8> {
        let mut deck = Vec::new();
        for level in 1..=self.depth {
            let last = level == self.depth;
            deck.extend(include(self.ids.then_some(level as u32)));
            if self.all_changed || last {
                deck.extend(CHANGED);
            }
            if last {
                deck.extend(&self.core);
                break;
            }
            let kind = if self.way == Way::Item { 0x23 } else { 0x24 };
            deck.extend(collection(kind, self.flow, 1));
            if self.way == Way::Value {
                deck.push(NULL);
            }
        }
        if self.way == Way::Key {
            // Each level's value, the innermost first.
            deck.resize(deck.len() + self.depth - 1, NULL);
        }
        deck
    }
}

/// All decks at the limits that are about includes, beside those of `extremes`.
pub fn limits() -> Vec<Extreme> {
    let mut found = side_by_side();
    found.extend(nested());
    found.extend(long_files());
    found
}

fn small(name: &str, deck: Vec<u8>) -> Extreme {
    made(name, deck, b"a".to_vec())
}

/// Nearly as many changed includes as a deck holds, and as many includes as it holds. A changed include takes 21 bytes with a mark of its own; where
/// its key is a changed include it needs none, and takes 19: record, mapping and a null. So there are never more than 3,449, and a list of 4,096
/// entries is never too short.
fn side_by_side() -> Vec<Extreme> {
    let key_tower = |depth| {
        let mut nest = Nest::new(Way::Key, depth);
        (nest.flow, nest.all_changed) = (true, false);
        nest.deck()
    };
    let mut most = key_tower(MOST_DEPTH).repeat(53);
    most.extend(key_tower(51));
    let changed = |id| [include(Some(id)), CHANGED.to_vec(), vec![NULL]].concat();
    let unchanged = [include(Some(7)), vec![NULL]].concat();
    let documents = changed(7).repeat(MOST_DECK / 21);
    let mut ids = collection(0x23, false, 3_120);
    (0..3_120u32).for_each(|number| ids.extend(changed(u32::MAX - number * number)));
    let mut marked_root = CHANGED.to_vec();
    marked_root.extend(collection(0x23, false, 4_368));
    marked_root.extend(unchanged.repeat(4_368));
    vec![
        small("3,443 changed includes, most of them keys", most),
        small("3,120 documents, each a changed include", documents),
        small("3,120 changed includes, each with an id of its own", ids),
        small(
            "4,369 includes, none changed",
            unchanged.repeat(MOST_DECK / 15),
        ),
        small("4,368 includes in a changed document", marked_root),
    ]
}

/// Includes in one another, as deep as may be.
fn nested() -> Vec<Extreme> {
    let mut found = Vec::new();
    for (way, word) in [
        (Way::Item, "item"),
        (Way::Value, "value"),
        (Way::Key, "key"),
    ] {
        for (flow, form) in [(false, "block"), (true, "flow")] {
            for (all_changed, marks) in [(true, "all changed"), (false, "the deepest changed")] {
                let mut nest = Nest::new(way, MOST_DEPTH);
                (nest.flow, nest.all_changed) = (flow, all_changed);
                let name = format!("64 includes, each the {word} of another, {form}, {marks}");
                found.push(small(&name, nest.deck()));
            }
        }
        let mut nest = Nest::new(way, MOST_DEPTH);
        nest.ids = false;
        let name = format!("64 includes without an id, each the {word} of another");
        found.push(small(&name, nest.deck()));
        let name = format!("65 includes, each the {word} of another");
        found.push(small(&name, Nest::new(way, MOST_DEPTH + 1).deck()));
    }
    found
}

/// Files that fill the output to its last byte and pass it, and a text that is written once for each of 64 includes.
fn long_files() -> Vec<Extreme> {
    let pool = vec![b'a'; LONGEST];
    let one = [
        include(Some(1)),
        CHANGED.to_vec(),
        record(0x21, LONGEST, &[0]),
    ]
    .concat();
    let exact = one.repeat(16);
    let mut more = exact.clone();
    more.extend([include(Some(2)), CHANGED.to_vec(), vec![NULL]].concat());
    let mut nest = Nest::new(Way::Key, MOST_DEPTH);
    nest.core = record(0x21, LONGEST, &[1]);
    vec![
        made("16 changed files of 65,536 bytes each", exact, pool.clone()),
        made("5 changed bytes more", more, pool.clone()),
        made(
            "100 changed files of one long text",
            one.repeat(100),
            pool.clone(),
        ),
        made("a long text in 64 files", nest.deck(), pool),
    ]
}
