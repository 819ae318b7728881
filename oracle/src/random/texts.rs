//! Random texts, dense in what quoting, folding, block scalars and flow must be careful with.

use super::Rng;

/// Each stands for a hazard of its own; the last rows are ordinary, so that hazards meet ordinary neighbours.
#[rustfmt::skip]
const PIECES: [&str; 72] = [
    "\"", "'", "''", "\\", "\\n", "\\\"", "\0", "\u{1}", "\u{8}", "\u{b}", "\u{1b}", "\u{1f}",
    "\r", "\r\n", "\t", "\n", "\n", "\n\n", "\u{7f}", "\u{80}", "\u{84}", "\u{85}", "\u{86}", "\u{9f}",
    "\u{a0}", "\u{ff}", "\u{2028}", "\u{2029}", "\u{d7ff}", "\u{e000}",
    "\u{feff}", "\u{fffd}", "\u{fffe}", "\u{ffff}", "\u{10000}", "\u{1fffe}",
    "\u{1f600}", "\u{10ffff}", " ", " ", " ", "  ", "   ", " \n", "\n ", ": ", ":", ",",
    "[", "]", "{", "}", " #", "#", "- ", "? ", "*", "&", "!", "|",
    ">", "%", "---", "...", "~", "null", "\u{e9}", "0", "a", "b", "c d", "e f g",
];

#[rustfmt::skip]
const WORDS: [&str; 17] = [
    "a", "b", "of", "to", "it's", "tile", "angle", "origin", "\"q\"", "x\\y", "\u{e9}t\u{e9}", "\u{1f600}", "0.5", "a:b",
    "[c]", "engine", "~",
];

const FRONTS: [&str; 9] = [
    " ",
    "  ",
    "\n",
    "\n\n",
    "\t",
    "\u{feff}",
    "\u{feff} ",
    "\n ",
    "'",
];
const BACKS: [&str; 10] = [
    " ", "  ", "\n", "\n\n", "\n\n\n", ":", "\t", "\u{feff}", "\r", "\"",
];
const RAW_BODIES: [&str; 9] = [
    "",
    "0x1F",
    "|\n  a",
    ">-\n  a\n  b",
    "|+\n  a\n",
    "'x'",
    "\"a b\"",
    "a\nb",
    "\u{e9} \u{10000}",
];
const RAW_ENDS: [&str; 8] = ["", "", "", "\n", "\r", "\r\n", "\n\n", " "];

/// A text of at most `most` bytes of any sort.
pub fn text(rng: &mut Rng, most: usize) -> String {
    let long = rng.below(most + 1);
    let made = match rng.below(12) {
        0 => String::new(),
        1 | 2 => rng.one_of(&WORDS).to_owned(),
        3 | 4 => words(rng, most),
        5 => spaced(rng, long),
        6 | 7 => lines(rng, long),
        8 => edged(rng, long),
        _ => hazards(rng, long),
    };
    cut(made, most)
}

/// A text without a hazard, for trees that are to look like recipes.
pub fn plain(rng: &mut Rng, most: usize) -> String {
    let letters = b"abcdefghijklmnopqrstuvwxyz0123456789";
    let length = rng.between(1, 6);
    let made = (0..length)
        .map(|_| char::from(rng.one_of(letters)))
        .collect();
    cut(made, most)
}

/// Pieces one after another.
pub fn hazards(rng: &mut Rng, most: usize) -> String {
    let mut made = String::new();
    while made.len() < most {
        made.push_str(rng.one_of(&PIECES));
    }
    cut(made, most)
}

/// Several short words with one space between: something to fold.
pub fn words(rng: &mut Rng, most: usize) -> String {
    let mut made = String::new();
    for _ in 0..rng.between(2, 12) {
        if !made.is_empty() {
            made.push(' ');
        }
        made.push_str(rng.one_of(&WORDS));
    }
    cut(made, most)
}

/// Words and runs of one to three spaces, also at the ends.
fn spaced(rng: &mut Rng, most: usize) -> String {
    let mut made = String::new();
    while made.len() < most {
        let spaces = rng.one_of(&[0, 1, 1, 1, 2, 3]);
        made.push_str(&" ".repeat(spaces));
        made.push_str(rng.one_of(&["a", "bb", "ccc", ""]));
    }
    cut(made, most)
}

/// Lines, some of them empty or beginning with white space.
fn lines(rng: &mut Rng, most: usize) -> String {
    let mut made = String::new();
    while made.len() < most {
        made.push_str(rng.one_of(&["", "", "", " ", "\t", "  "]));
        made.push_str(rng.one_of(&["", "a", "b c", "# d", "\u{85}", "\u{feff}e"]));
        made.push('\n');
    }
    if rng.one_in(3) {
        made.pop();
    }
    cut(made, most)
}

/// A text with something troublesome at one end or at both.
fn edged(rng: &mut Rng, most: usize) -> String {
    let mut made = String::new();
    if rng.chance(60) {
        made.push_str(rng.one_of(&FRONTS));
    }
    if rng.chance(80) {
        made.push_str(&words(rng, most));
    }
    if rng.chance(60) {
        made.push_str(rng.one_of(&BACKS));
    }
    made
}

/// A raw text: any body beside any ending.
pub fn raw(rng: &mut Rng, most: usize) -> String {
    let mut made = if rng.chance(70) {
        rng.one_of(&RAW_BODIES).to_owned()
    } else {
        text(rng, most)
    };
    made.push_str(rng.one_of(&RAW_ENDS));
    cut(made, most)
}

/// The first `most` bytes, or one to three fewer where they end inside a character.
fn cut(mut made: String, most: usize) -> String {
    let mut end = made.len().min(most);
    while !made.is_char_boundary(end) {
        end -= 1;
    }
    made.truncate(end);
    made
}
