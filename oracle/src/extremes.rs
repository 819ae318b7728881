//! Decks at the limits: as many documents, siblings, pairs and records as fit, texts as long as a reference can name, towers as deep as may be,
//! and many records that name one long text.

use crate::calls::{MOST_DECK, MOST_POOL};
use crate::damage::{tower, tower_place, TOWERS};
use crate::deck::Deck;

/// The longest text that a reference can name.
pub const LONGEST: usize = 65_535;

pub struct Extreme {
    pub name: String,
    pub deck: Deck,
    /// What is written would be far too long: gigabytes. Few calls are spent on it.
    pub huge: bool,
}

pub(crate) fn made(name: &str, deck: Vec<u8>, pool: Vec<u8>) -> Extreme {
    Extreme {
        name: name.to_owned(),
        deck: Deck { deck, pool },
        huge: false,
    }
}

/// A reference to the whole of a text at the pool's front.
pub(crate) fn whole(length: usize) -> [u8; 4] {
    let length = (length as u16).to_le_bytes();
    [0, 0, length[0], length[1]]
}

pub(crate) fn record(kind: u8, length: usize, rest: &[u8]) -> Vec<u8> {
    let mut bytes = vec![kind];
    bytes.extend(whole(length));
    bytes.extend(rest);
    bytes
}

pub(crate) fn collection(kind: u8, flow: bool, count: usize) -> Vec<u8> {
    let count = (count as u16).to_le_bytes();
    vec![kind, u8::from(flow), count[0], count[1]]
}

/// All of them, small ones first.
pub fn all() -> Vec<Extreme> {
    let mut found = towers();
    found.extend(counts());
    found.extend(texts());
    found.extend(records());
    found.extend(includes());
    found.extend(one_text());
    found
}

/// Every way down, block and flow, with depth 64 and 65, plain and with a tag on the deepest node.
fn towers() -> Vec<Extreme> {
    let mut found = Vec::new();
    for way in TOWERS {
        for depth in [64, 65] {
            for flow in [false, true] {
                let plain = tower(way, depth, flow);
                let mut tagged = plain.clone();
                let place = tower_place(way, depth);
                tagged.deck.splice(place..place, [0x01, 0, 0, 0, 0]);
                let name = format!("{way:?} depth {depth} flow {flow}");
                found.push(made(&name, plain.deck, plain.pool));
                found.push(made(&(name + " tagged"), tagged.deck, tagged.pool));
            }
        }
    }
    found
}

/// As many documents, items and pairs as the deck holds; a count that says more than there is.
fn counts() -> Vec<Extreme> {
    let mut found = vec![made("65,536 documents", vec![0x20; MOST_DECK], vec![])];
    let full = |kind, flow, count: usize| {
        let mut deck = collection(kind, flow, count);
        deck.resize(MOST_DECK, 0x20);
        deck
    };
    let inside = MOST_DECK - 4;
    for flow in [false, true] {
        found.push(made("65,532 items", full(0x23, flow, inside), vec![]));
        found.push(made("32,766 pairs", full(0x24, flow, inside / 2), vec![]));
        found.push(made(
            "65,535 items, 65,532 there",
            full(0x23, flow, 65_535),
            vec![],
        ));
        found.push(made(
            "65,535 pairs, 32,766 there",
            full(0x24, flow, 65_535),
            vec![],
        ));
        found.push(made(
            "65,535 items, none there",
            collection(0x23, flow, 65_535),
            vec![],
        ));
    }
    found.push(made(
        "a broken record at the end",
        {
            let mut deck = vec![0x20; MOST_DECK];
            deck[MOST_DECK - 1] = 0x21;
            deck
        },
        vec![],
    ));
    found
}

/// One text as long as can be, in every style, of several sorts; and items that fill the output to its last byte.
fn texts() -> Vec<Extreme> {
    let sorts: [(&str, &[u8]); 6] = [
        ("words", b"ab cd "),
        ("letters", b"a"),
        ("line breaks", b"\n"),
        ("controls", b"\x01"),
        ("apostrophes", b"'"),
        ("lines", b"a b\n"),
    ];
    let mut found = Vec::new();
    for (name, piece) in sorts {
        let pool: Vec<u8> = piece.iter().copied().cycle().take(LONGEST).collect();
        for style in 0..5 {
            let name = format!("{LONGEST} bytes of {name}, style {style}");
            found.push(made(&name, record(0x21, LONGEST, &[style]), pool.clone()));
        }
    }
    // `- `, the text and a line break: 65,536 bytes sixteen times.
    let mut deck = collection(0x23, false, 16);
    for _ in 0..16 {
        deck.extend(record(0x21, 65_533, &[0]));
    }
    found.push(made("1,048,576 bytes", deck.clone(), vec![b'a'; MOST_POOL]));
    let at = deck.len() - 5;
    deck[at + 2] += 1;
    found.push(made("1,048,577 bytes", deck, vec![b'a'; MOST_POOL]));
    let wide = "\u{fffe}".repeat(LONGEST / 3).into_bytes();
    let text = record(0x21, wide.len(), &[2]);
    found.push(made("the longest escapes", text, wide));
    found
}

/// As many records of a kind as fit before one node.
fn records() -> Vec<Extreme> {
    let mut found = Vec::new();
    for (name, kind, rest) in [
        ("head", 0x04u8, &[0u8][..]),
        ("foot", 0x06, &[]),
        ("directive", 0x08, &[]),
    ] {
        let one = record(kind, 3, rest);
        let mut deck = one.repeat((MOST_DECK - 1) / one.len());
        deck.push(0x20);
        found.push(made(
            &format!("a {name} comment many times"),
            deck,
            b"abc".to_vec(),
        ));
    }
    let layout = [0x09, 255, 255, 255, 255, 0x7f, 0x20];
    let many = MOST_DECK / layout.len();
    let mut deck = collection(0x23, false, many - 1);
    deck.extend(layout.repeat(many - 1));
    found.push(made("layouts of large numbers", deck, vec![]));
    found
}

/// As many changed includes as fit, side by side, and one in another as deep as may be.
fn includes() -> Vec<Extreme> {
    let mut include = record(0x03, 1, &whole(1));
    include.extend([1, 7, 0, 0, 0]);
    include.extend([0x09, 0, 0, 0, 0, 1]);
    let side_by_side = |count: usize| {
        let one: Vec<u8> = include.iter().copied().chain([0x20]).collect();
        let mut deck = collection(0x23, false, count);
        deck.extend(one.repeat(count));
        deck
    };
    let mut nested = Vec::new();
    for _ in 1..64 {
        nested.extend(&include);
        nested.extend(collection(0x23, false, 1));
    }
    nested.extend(&include);
    nested.push(0x20);
    let most = (MOST_DECK - 4) / 21;
    vec![
        made("3,120 changed includes", side_by_side(most), b"a".to_vec()),
        made("changed includes, 64 deep", nested, b"a".to_vec()),
    ]
}

/// Every record names one text of 64 KiB: over 13,000 aliases. The text has a bad byte that nobody names, or one at its end.
fn one_text() -> Vec<Extreme> {
    let mut found = Vec::new();
    let alias = record(0x22, LONGEST, &[]);
    let good = vec![b'a'; MOST_POOL];
    let mut unnamed = good.clone();
    unnamed[MOST_POOL - 1] = 0xff;
    let mut named = good.clone();
    named[LONGEST - 1] = 0xff;
    for (name, pool) in [
        ("good", good),
        ("a bad byte unnamed", unnamed),
        ("a bad byte named", named),
    ] {
        let deck = alias.repeat(MOST_DECK / alias.len());
        let huge = name != "a bad byte named";
        let name = format!("13,107 aliases of one text: {name}");
        found.push(Extreme {
            huge,
            ..made(&name, deck, pool)
        });
    }
    found
}
