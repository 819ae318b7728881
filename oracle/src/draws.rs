//! Random cases for the comparison with the archive: mostly small decks of every sort, good, damaged and made of noise.

use crate::damage::{self, damage, tower, TOWERS};
use crate::deck::{build, Deck, Pooling, POOLINGS};
use crate::included;
use crate::random::texts;
use crate::random::{trees, Rng};
use crate::recipes;
use crate::theorems;

/// A deck of any sort.
pub fn deck(rng: &mut Rng) -> Deck {
    match rng.below(40) {
        0..=10 => tree(rng),
        11..=15 => included::deck(rng),
        16..=21 => corner(rng),
        22..=24 => scalar(rng),
        25..=27 => recipe(rng),
        28..=36 => damaged(rng),
        37 => noise(rng),
        38 => tall(rng),
        _ if rng.one_in(20) => large(rng),
        _ => tree(rng),
    }
}

fn pooled(rng: &mut Rng, documents: &[crate::roundtrip::ast::YamlNode]) -> Deck {
    let pooling = rng.one_of(&POOLINGS);
    build(documents, pooling, rng)
}

fn tree(rng: &mut Rng) -> Deck {
    let (most, longest) = (rng.one_of(&[3, 6, 12, 24]), rng.one_of(&[2, 8, 16, 40]));
    let nodes = rng.between(1, most);
    let documents = if rng.chance(75) {
        vec![trees::document(rng, nodes, longest)]
    } else {
        trees::documents(rng, nodes, longest)
    };
    pooled(rng, &documents)
}

fn corner(rng: &mut Rng) -> Deck {
    let mood = trees::corner(rng);
    let nodes = rng.between(2, 9);
    let document = trees::grow(rng, &mood, nodes, 12);
    pooled(rng, &[document])
}

/// A scalar that can be folded, at one of the places where it stands on a line.
fn scalar(rng: &mut Rng) -> Deck {
    let text = texts::words(rng, 60);
    let document = theorems::placed(rng, text);
    build(&[document], Pooling::InOrder, rng)
}

fn recipe(rng: &mut Rng) -> Deck {
    let nodes = rng.between(1, 14);
    let documents = recipes::recipe(rng, nodes);
    pooled(rng, &documents)
}

fn damaged(rng: &mut Rng) -> Deck {
    let mut deck = if rng.one_in(30) { tall(rng) } else { tree(rng) };
    damage(rng, &mut deck.deck, &mut deck.pool);
    deck
}

/// Kinds and small numbers at random.
fn noise(rng: &mut Rng) -> Deck {
    let kinds = [
        1, 2, 3, 4, 5, 6, 7, 8, 9, 0x20, 0x21, 0x22, 0x23, 0x24, 0, 0, 0, 1,
    ];
    let deck = (0..rng.below(40)).map(|_| rng.one_of(&kinds)).collect();
    let pool = (0..rng.below(600)).map(|_| rng.byte() & 0x7f).collect();
    Deck { deck, pool }
}

/// A tower about as deep as may be, now and then with a tag on its deepest node.
fn tall(rng: &mut Rng) -> Deck {
    let (way, depth) = (rng.one_of(&TOWERS), rng.between(62, 66));
    let mut deck = tower(way, depth, rng.one_in(2));
    if rng.one_in(3) {
        let place = damage::tower_place(way, depth);
        deck.deck.splice(place..place, [0x01, 0, 0, 0, 0]);
    }
    deck
}

/// A node has at most fourteen texts; more than the pool holds are not drawn.
fn large(rng: &mut Rng) -> Deck {
    let longest = rng.one_of(&[8, 40, 300]);
    let most = 65_535 / (14 * longest);
    let nodes = rng.between(most / 4, most);
    let documents = trees::documents(rng, nodes, longest);
    build(&documents, Pooling::InOrder, rng)
}
