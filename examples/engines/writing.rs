//! From a tree to the files that changed. Each is asked for by three calls: whether the document changed, its bytes, and the changed includes.

use crate::recipe::FILES;
use oracle::calls::{Call, Change, Lent, Outcome};
use oracle::deck::{build, Deck, Pooling};
use oracle::random::Rng;
use oracle::roundtrip::ast::YamlNode;

/// A call's outcome: the archive's, or the Rust's.
pub type Ask = fn(&Call, &Lent) -> Outcome;

/// The files that changed, each with its name and bytes. No other file is to be written.
pub fn changed_files(document: &YamlNode, ask: Ask) -> Vec<(&'static str, Vec<u8>)> {
    let deck = deck(document);
    let mut files = Vec::new();
    if answered(&Call::LocalModified, &deck, ask).yes {
        files.push((FILES[0], bytes(document, ask)));
    }
    let said = answered(&Call::CollectChangedIncludeChanges, &deck, ask);
    for Change { id, start, length } in &said.list[..said.count] {
        let bytes = said.output[*start..start + length].to_vec();
        files.push((FILES[*id as usize], bytes));
    }
    files
}

/// A document's bytes, changed or not.
pub fn bytes(document: &YamlNode, ask: Ask) -> Vec<u8> {
    let said = answered(&Call::EmitRoundtrip, &deck(document), ask);
    said.output[..said.length].to_vec()
}

/// The tree as records and a pool of text, in which equal texts lie once.
fn deck(document: &YamlNode) -> Deck {
    let documents = std::slice::from_ref(document);
    build(documents, Pooling::Shared, &mut Rng::new(0))
}

/// The outcome of a call that must answer: 4,096 bytes and 8 entries are enough here.
fn answered(call: &Call, deck: &Deck, ask: Ask) -> Outcome {
    let lent = Lent {
        deck: deck.deck.clone(),
        pool: deck.pool.clone(),
        output: vec![0; if call.is_lent_output() { 4096 } else { 0 }],
        list: vec![Change::default(); if call.is_lent_list() { 8 } else { 0 }],
    };
    let outcome = ask(call, &lent);
    assert_eq!(outcome.number, 0, "{call:?} was refused");
    outcome
}
