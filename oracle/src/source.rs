//! Where the emitted bytes come from that readers are given: the archive where one is linked, else the Rust.

use crate::archive;
use crate::calls::{self, Call, MOST_OUTPUT};
use crate::deck::Deck;

/// Whose bytes these are, in words.
pub fn name(call: &Call) -> &'static str {
    if archive::has(call) {
        "the archive's"
    } else {
        "the Rust's"
    }
}

/// What a call writes of a good deck with room for anything; nothing where it is refused.
pub fn written(call: &Call, deck: &Deck) -> Vec<u8> {
    if !archive::has(call) {
        let written = calls::unbounded(call, &deck.deck, &deck.pool);
        return written.map_or(Vec::new(), |written| written.bytes);
    }
    let mut output = vec![0; MOST_OUTPUT];
    let answer = archive::answer(call, &deck.deck, &deck.pool, &mut output, &mut []);
    output.truncate(answer.length);
    output
}
