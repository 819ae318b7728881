//! Decks that are not well formed: good ones damaged at random, with an eye to the bytes that mean something,
//! and towers of a given depth.

use crate::deck::{body_length, Deck};
use crate::random::Rng;
use std::ops::Range;

type Way = fn(&mut Rng, &mut Deck);

const WAYS: [Way; 16] = [
    flip_any,
    flip_kind,
    change_meaning,
    change_meaning,
    change_count,
    change_length,
    cut_deck,
    cut_pool,
    insert,
    delete,
    swap_records,
    repeat_record,
    bad_reference,
    bad_utf8,
    split_text,
    disorder,
];

/// Sequences that are no UTF-8: overlong, surrogates, past U+10FFFF, cut, continuation bytes alone, bytes never used.
#[rustfmt::skip]
pub const BAD_UTF8: [&[u8]; 30] = [
    b"\xc0\x80", b"\xc1\xbf", b"\xe0\x80\x80", b"\xe0\x9f\xbf", b"\xf0\x80\x80\x80", b"\xf0\x8f\xbf\xbf",
    b"\xed\xa0\x80", b"\xed\xbf\xbf", b"\xf4\x90\x80\x80", b"\xf7\xbf\xbf\xbf",
    b"\xc3", b"\xe2\x82", b"\xe2", b"\xf0\x9f\x98", b"\xf0\x9f", b"\xf0",
    b"\xc3a", b"\xe2\x82a", b"\xf0\x9f\x98a", b"\xe2\x28\xa1", b"\xc3\xc3\xa9",
    b"\x80", b"\xbf", b"\xc3\xa9\x80",
    b"\xf5\x80\x80\x80", b"\xf8\x88\x80\x80\x80", b"\xfc", b"\xfe", b"\xff", b"\xff\xfe",
];

/// Sequences at the edges of what is UTF-8, on its good side.
#[rustfmt::skip]
pub const EDGE_UTF8: [&[u8]; 12] = [
    b"\x00", b"\x7f", b"\xc2\x80", b"\xdf\xbf", b"\xe0\xa0\x80", b"\xec\xbf\xbf", b"\xed\x9f\xbf", b"\xee\x80\x80",
    b"\xef\xbf\xbf", b"\xf0\x90\x80\x80", b"\xf3\xbf\xbf\xbf", b"\xf4\x8f\xbf\xbf",
];

/// Damages a deck or its pool in one to three ways. It may happen to stay, or to become, well formed.
pub fn damage(rng: &mut Rng, deck: &mut Vec<u8>, pool: &mut Vec<u8>) {
    let mut hurt = Deck {
        deck: std::mem::take(deck),
        pool: std::mem::take(pool),
    };
    for _ in 0..rng.one_of(&[1, 1, 1, 2, 3]) {
        let way = rng.one_of(&WAYS);
        way(rng, &mut hurt);
    }
    *deck = hurt.deck;
    *pool = hurt.pool;
}

/// Where the records lie, as far as kinds and bodies can be followed.
pub fn records(deck: &[u8]) -> Vec<Range<usize>> {
    let mut found = Vec::new();
    let mut at = 0;
    while at < deck.len() {
        let Some(length) = body_length(deck[at]) else {
            break;
        };
        let end = at + 1 + length;
        if end > deck.len() {
            break;
        }
        found.push(at..end);
        at = end;
    }
    found
}

/// A record for which `wanted` finds something to damage, and what it finds.
fn pick<T>(rng: &mut Rng, deck: &[u8], wanted: fn(u8) -> Option<T>) -> Option<(usize, T)> {
    let mut found: Vec<(usize, T)> = records(deck)
        .into_iter()
        .filter_map(|record| Some((record.start, wanted(deck[record.start])?)))
        .collect();
    if found.is_empty() {
        return None;
    }
    Some(found.swap_remove(rng.below(found.len())))
}

/// The byte of a record (counted from its kind) that has few meanings: a presence, a side, a style, a form, the marks.
fn meaning_byte(kind: u8) -> Option<usize> {
    match kind {
        0x03 => Some(9),
        0x04 | 0x09 | 0x21 => Some(5),
        0x23 | 0x24 => Some(1),
        _ => None,
    }
}

fn count_field(kind: u8) -> Option<usize> {
    matches!(kind, 0x23 | 0x24).then_some(2)
}

/// Where the references of a record lie, counted from its kind.
fn reference_fields(kind: u8) -> Option<&'static [usize]> {
    match kind {
        0x03 => Some(&[1, 5]),
        0x01 | 0x02 | 0x04..=0x08 | 0x21 | 0x22 => Some(&[1]),
        _ => None,
    }
}

fn pick_reference(rng: &mut Rng, deck: &[u8]) -> Option<usize> {
    let (place, fields) = pick(rng, deck, reference_fields)?;
    Some(place + rng.one_of(fields))
}

fn put_number(deck: &mut [u8], place: usize, number: usize) {
    deck[place..place + 2].copy_from_slice(&(number as u16).to_le_bytes());
}

fn get_number(deck: &[u8], place: usize) -> usize {
    usize::from(deck[place]) + 256 * usize::from(deck[place + 1])
}

fn flip_any(rng: &mut Rng, hurt: &mut Deck) {
    let Deck { deck, pool } = hurt;
    let bytes = if rng.one_in(4) { pool } else { deck };
    if !bytes.is_empty() {
        let place = rng.below(bytes.len());
        bytes[place] ^= 1 << rng.below(8);
    }
}

fn flip_kind(rng: &mut Rng, hurt: &mut Deck) {
    let deck = &mut hurt.deck;
    if let Some((place, ())) = pick(rng, deck, |_| Some(())) {
        deck[place] = if rng.one_in(2) {
            deck[place] ^ (1 << rng.below(8))
        } else {
            rng.one_of(&[
                0x00, 0x01, 0x03, 0x09, 0x0a, 0x10, 0x1f, 0x20, 0x22, 0x24, 0x25, 0x80, 0xff,
            ])
        };
    }
}

fn change_meaning(rng: &mut Rng, hurt: &mut Deck) {
    let deck = &mut hurt.deck;
    if let Some((place, field)) = pick(rng, deck, meaning_byte) {
        deck[place + field] = rng.one_of(&[0, 1, 2, 3, 4, 5, 6, 127, 128, 129, 255]);
    }
}

fn change_count(rng: &mut Rng, hurt: &mut Deck) {
    let deck = &mut hurt.deck;
    if let Some((place, field)) = pick(rng, deck, count_field) {
        let count = get_number(deck, place + field);
        let changed = rng.one_of(&[
            count + 1,
            count + 1,
            count.saturating_sub(1),
            0,
            256,
            65_535,
        ]);
        put_number(deck, place + field, changed);
    }
}

fn change_length(rng: &mut Rng, hurt: &mut Deck) {
    let deck = &mut hurt.deck;
    if let Some(field) = pick_reference(rng, deck) {
        let length = get_number(deck, field + 2);
        let changed = rng.one_of(&[
            length + 1,
            length + 1,
            length.saturating_sub(1),
            0,
            256,
            65_535,
        ]);
        put_number(deck, field + 2, changed);
    }
}

fn cut_deck(rng: &mut Rng, hurt: &mut Deck) {
    let deck = &mut hurt.deck;
    let ends = records(deck);
    let between_records = rng.one_in(2) && !ends.is_empty();
    let length = if between_records {
        ends[rng.below(ends.len())].start
    } else {
        rng.below(deck.len() + 1)
    };
    deck.truncate(length);
}

fn cut_pool(rng: &mut Rng, hurt: &mut Deck) {
    let pool = &mut hurt.pool;
    let length = if rng.one_in(2) {
        pool.len().saturating_sub(1)
    } else {
        rng.below(pool.len() + 1)
    };
    pool.truncate(length);
}

fn insert(rng: &mut Rng, hurt: &mut Deck) {
    let Deck { deck, pool } = hurt;
    let bytes = if rng.one_in(4) { pool } else { deck };
    for _ in 0..rng.between(1, 3) {
        let place = rng.below(bytes.len() + 1);
        let byte = rng.byte();
        bytes.insert(place, byte);
    }
}

fn delete(rng: &mut Rng, hurt: &mut Deck) {
    let Deck { deck, pool } = hurt;
    let bytes = if rng.one_in(4) { pool } else { deck };
    let start = rng.below(bytes.len() + 1);
    let end = (start + rng.between(1, 6)).min(bytes.len());
    bytes.drain(start..end);
}

/// Two records change places, neighbours or any two.
fn swap_records(rng: &mut Rng, hurt: &mut Deck) {
    let deck = &mut hurt.deck;
    let found = records(deck);
    if found.len() < 2 {
        return;
    }
    let first = rng.below(found.len() - 1);
    let second = if rng.one_in(2) {
        first + 1
    } else {
        rng.between(first + 1, found.len() - 1)
    };
    swap(deck, &found[first], &found[second]);
}

fn swap(deck: &mut Vec<u8>, first: &Range<usize>, second: &Range<usize>) {
    let mut swapped = deck[second.clone()].to_vec();
    swapped.extend_from_slice(&deck[first.end..second.start]);
    swapped.extend_from_slice(&deck[first.clone()]);
    deck.splice(first.start..second.end, swapped);
}

/// A record stands once more: right behind itself or before any other.
fn repeat_record(rng: &mut Rng, hurt: &mut Deck) {
    let deck = &mut hurt.deck;
    let found = records(deck);
    if found.is_empty() {
        return;
    }
    let record = found[rng.below(found.len())].clone();
    let place = if rng.one_in(2) {
        record.end
    } else {
        found[rng.below(found.len())].start
    };
    let copy = deck[record].to_vec();
    deck.splice(place..place, copy);
}

/// A reference past the pool: by one, by far, or empty and past its end.
fn bad_reference(rng: &mut Rng, hurt: &mut Deck) {
    let Deck { deck, pool } = hurt;
    let Some(field) = pick_reference(rng, deck) else {
        return;
    };
    let size = pool.len().min(65_534);
    let offset = get_number(deck, field).min(size);
    let (offset, length) = match rng.below(6) {
        0 => (offset, size + 1 - offset),
        1 => (offset, 65_535),
        2 => (65_535, 65_535),
        3 => (size + 1, 0),
        4 => (65_535, 0),
        _ => (size, rng.below(2)),
    };
    put_number(deck, field, offset);
    put_number(deck, field + 2, length);
}

/// A reference to a text at the pool's end with a bad sequence in it, or with one that is just good.
fn bad_utf8(rng: &mut Rng, hurt: &mut Deck) {
    let Deck { deck, pool } = hurt;
    let Some(field) = pick_reference(rng, deck) else {
        return;
    };
    let sequence = if rng.chance(75) {
        rng.one_of(&BAD_UTF8)
    } else {
        rng.one_of(&EDGE_UTF8)
    };
    let mut text = rng
        .one_of(&["", "", "a", "\u{e9}", "\u{1f600}"])
        .as_bytes()
        .to_vec();
    text.extend_from_slice(sequence);
    text.extend_from_slice(rng.one_of(&["", "", "b", "\u{20ac}"]).as_bytes());
    if pool.len() + text.len() <= 65_536 {
        put_number(deck, field, pool.len());
        put_number(deck, field + 2, text.len());
        pool.extend_from_slice(&text);
    }
}

/// A reference that begins or ends inside a character, where the pool has one of several bytes.
fn split_text(rng: &mut Rng, hurt: &mut Deck) {
    let Deck { deck, pool } = hurt;
    let inside: Vec<usize> = (0..pool.len()).filter(|&at| pool[at] >= 0x80).collect();
    if inside.is_empty() {
        return bad_utf8(rng, hurt);
    }
    if let Some(field) = pick_reference(rng, deck) {
        let at = inside[rng.below(inside.len())].min(65_535);
        let start = at.saturating_sub(rng.below(3));
        put_number(deck, field, start);
        put_number(deck, field + 2, (at - start + rng.below(3)).min(65_535));
    }
}

/// Two leading records of one node change places, or one that must not repeat does.
fn disorder(rng: &mut Rng, hurt: &mut Deck) {
    let deck = &mut hurt.deck;
    let found = records(deck);
    let leading = |record: &Range<usize>| deck[record.start] <= 0x09;
    let pairs: Vec<usize> = (1..found.len())
        .filter(|&index| leading(&found[index - 1]) && leading(&found[index]))
        .collect();
    if !pairs.is_empty() && rng.chance(70) {
        let index = pairs[rng.below(pairs.len())];
        return swap(deck, &found[index - 1], &found[index]);
    }
    let alone: Vec<usize> = (0..found.len())
        .filter(|&index| leading(&found[index]))
        .collect();
    if !alone.is_empty() {
        let record = found[alone[rng.below(alone.len())]].clone();
        let copy = deck[record.clone()].to_vec();
        deck.splice(record.end..record.end, copy);
    }
}

/// What a tower is built of, each level the only child or pair of the one above.
#[derive(Debug, Clone, Copy, PartialEq, Eq)]
pub enum Tower {
    Sequences,
    MappingsByValue,
    MappingsByKey,
}

pub const TOWERS: [Tower; 3] = [
    Tower::Sequences,
    Tower::MappingsByValue,
    Tower::MappingsByKey,
];

/// A deck of one document that is `depth` deep (at least 1), block or flow, with a null as its deepest node.
pub fn tower(tower: Tower, depth: usize, flow: bool) -> Deck {
    let mut deck = Vec::new();
    for _ in 1..depth {
        let kind = if tower == Tower::Sequences {
            0x23
        } else {
            0x24
        };
        deck.extend_from_slice(&[kind, u8::from(flow), 1, 0]);
        if tower == Tower::MappingsByValue {
            deck.push(0x20);
        }
    }
    deck.push(0x20);
    if tower == Tower::MappingsByKey {
        // Each level's value, the deepest first.
        deck.resize(deck.len() + depth - 1, 0x20);
    }
    Deck {
        deck,
        pool: Vec::new(),
    }
}

/// The place of a tower's record of the given depth on the way down; at depth 65 the place of refusal 6.
/// In a tower of mappings by value the key of the level above is as deep and comes first.
pub fn tower_place(tower: Tower, depth: usize) -> usize {
    match tower {
        Tower::Sequences | Tower::MappingsByKey => 4 * (depth - 1),
        Tower::MappingsByValue if depth == 1 => 0,
        Tower::MappingsByValue => 5 * (depth - 1) - 1,
    }
}
