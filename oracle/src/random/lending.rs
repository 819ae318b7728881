//! Random calls, settings that bite, and what a call is lent: rooms around the finished length, filled with bytes that
//! are not zero, so that every byte that must stay or must be cleared can be seen.

use super::Rng;
use crate::calls::{self, Call, Change, Lent, Settings};
use crate::deck::Deck;
use crate::encode::NullStyle;

pub fn null_style(rng: &mut Rng) -> NullStyle {
    rng.one_of(&[NullStyle::Null, NullStyle::Empty, NullStyle::Tilde])
}

/// Settings within the limits, but now and then one just over.
pub fn settings(rng: &mut Rng) -> Settings {
    let mut drawn = good_settings(rng);
    if rng.one_in(40) {
        drawn.indent = rng.one_of(&[17, 18, 256, usize::MAX]);
    }
    if rng.one_in(40) {
        drawn.width = rng.one_of(&[65_536, 65_537, usize::MAX]);
    }
    drawn
}

/// Settings within the limits.
pub fn good_settings(rng: &mut Rng) -> Settings {
    let width = match rng.below(12) {
        0..=2 => 0,
        3..=6 => rng.between(1, 12),
        7..=10 => rng.between(1, 40),
        _ => rng.one_of(&[80, 65_534, 65_535]),
    };
    let indent = if rng.chance(85) {
        rng.below(7)
    } else {
        rng.below(17)
    };
    Settings {
        null_style: null_style(rng),
        indent_sequences: rng.one_in(2),
        explicit_end: rng.one_in(4),
        indent,
        indentless: rng.one_in(2),
        single_quotes: rng.one_in(2),
        width,
    }
}

/// One of the six calls; the two with the most in them come more often.
pub fn call(rng: &mut Rng) -> Call {
    match rng.below(10) {
        0 => Call::EmitRoundtrip,
        1 => Call::EmitRoundtripWith(null_style(rng)),
        2 | 3 => Call::EmitRoundtripAllWith(null_style(rng)),
        4 => Call::LocalModified,
        5 | 6 => Call::CollectChangedIncludeChanges,
        _ => Call::EmitRoundtripDump(settings(rng)),
    }
}

/// A call that suits this number of documents, but for one in twenty: few cases are spent on refusal 8.
pub fn call_for(rng: &mut Rng, documents: usize) -> Call {
    loop {
        let drawn = call(rng);
        if documents == 1 || !drawn.takes_one_document() || rng.one_in(20) {
            return drawn;
        }
    }
}

/// Each of the six calls once.
pub fn every_call(rng: &mut Rng) -> [Call; 6] {
    [
        Call::EmitRoundtrip,
        Call::EmitRoundtripWith(null_style(rng)),
        Call::EmitRoundtripAllWith(null_style(rng)),
        Call::EmitRoundtripDump(settings(rng)),
        Call::CollectChangedIncludeChanges,
        Call::LocalModified,
    ]
}

/// What the call is lent on this deck: exact rooms, one short, none, or ample ones.
pub fn lent(rng: &mut Rng, call: &Call, deck: &Deck) -> Lent {
    let written = if calls::over_settings(call) {
        calls::Written::default()
    } else {
        calls::unbounded(call, &deck.deck, &deck.pool).unwrap_or_default()
    };
    let output = if call.is_lent_output() {
        room(rng, written.bytes.len()).min(calls::MOST_OUTPUT)
    } else {
        0
    };
    let list = if call.is_lent_list() {
        room(rng, written.changes.len()).min(calls::MOST_LIST)
    } else {
        0
    };
    lent_of(rng, deck, output, list)
}

/// A loan with rooms of these sizes.
pub fn lent_of(rng: &mut Rng, deck: &Deck, output: usize, list: usize) -> Lent {
    Lent {
        deck: deck.deck.clone(),
        pool: deck.pool.clone(),
        output: entry_bytes(rng, output),
        list: entry_list(rng, list),
    }
}

/// Makes one part of a loan larger than its limit: by one mostly, the rest of it being as it was.
pub fn enlarge(rng: &mut Rng, call: &Call, lent: &mut Lent) {
    let more = rng.one_of(&[1, 1, 1, 2, 100]);
    let parts = 2 + usize::from(call.is_lent_output()) + usize::from(call.is_lent_list());
    match rng.below(parts) {
        0 => lent.deck.resize(calls::MOST_DECK + more, 0x20),
        1 => lent.pool.resize(calls::MOST_POOL + more, b'a'),
        2 => lent.output.resize(calls::MOST_OUTPUT + more, 0xaa),
        _ => lent.list = entry_list(rng, calls::MOST_LIST + more),
    }
}

/// A room for something of this size.
fn room(rng: &mut Rng, finished: usize) -> usize {
    match rng.below(8) {
        0 | 1 => finished,
        2 => finished.saturating_sub(1),
        3 => rng.one_of(&[0, 0, finished / 2]),
        4 => finished + 1,
        _ => finished + rng.between(2, 20),
    }
}

fn entry_bytes(rng: &mut Rng, length: usize) -> Vec<u8> {
    (0..length).map(|_| rng.between(1, 255) as u8).collect()
}

fn entry_list(rng: &mut Rng, length: usize) -> Vec<Change> {
    (0..length)
        .map(|_| Change {
            id: rng.between(1, 1000) as u32,
            start: rng.between(1, 1000),
            length: rng.between(1, 1000),
        })
        .collect()
}
