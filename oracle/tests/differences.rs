//! docs/DIFFERENCES.md is true: every line of it, replayed through the Rust, gives the bytes that it shows; and every kind of difference that
//! `oracle/readers` knows is named there.

use oracle::calls::{self, Call, Settings};
use oracle::encode::NullStyle;
use oracle::kinds;

const PAGE: &str = include_str!("../../docs/DIFFERENCES.md");

#[test]
fn every_kind_is_named() {
    let unnamed = kinds::unnamed(PAGE).map(|kind| kind.words);
    assert_eq!(unnamed, None);
    let first = kinds::unnamed("").map(|kind| kind.words);
    assert_eq!(first, Some(kinds::KINDS[0].words));
}

#[test]
fn every_line_is_what_the_rust_writes() {
    let lines: Vec<&str> = PAGE.lines().filter(|line| line.contains(" ¦ ")).collect();
    // The first line names the columns.
    assert!(
        lines.len() > 100,
        "The page has only {} lines.",
        lines.len()
    );
    for line in &lines[1..] {
        let columns: Vec<&str> = line.split(" ¦ ").collect();
        let [input, pool, shown, _] = columns[..] else {
            panic!("A line has not four columns: {line}");
        };
        let (call, deck) = call_on(input);
        let written = calls::unbounded(&call, &bytes_of(deck), &bytes_of(pool)).expect(line);
        assert_eq!(written.bytes, shown_bytes(shown), "{line}");
    }
}

/// All documents under plain settings, or one under the setting that stands before the deck.
fn call_on(input: &str) -> (Call, &str) {
    let plain = Settings::default();
    let settings = [
        ("width 1 ", Settings { width: 1, ..plain }),
        ("step 1 ", Settings { indent: 1, ..plain }),
        (
            "explicit end ",
            Settings {
                explicit_end: true,
                ..plain
            },
        ),
    ];
    for (words, settings) in settings {
        if let Some(deck) = input.strip_prefix(words) {
            return (Call::EmitRoundtripDump(settings), deck);
        }
    }
    (Call::EmitRoundtripAllWith(NullStyle::Null), input)
}

fn bytes_of(hex: &str) -> Vec<u8> {
    if hex == "-" {
        return Vec::new();
    }
    (0..hex.len())
        .step_by(2)
        .map(|at| u8::from_str_radix(&hex[at..at + 2], 16).expect(hex))
        .collect()
}

/// The bytes of a text with the escapes that the page names.
fn shown_bytes(shown: &str) -> Vec<u8> {
    let mut made = String::new();
    let mut rest = shown.chars();
    while let Some(character) = rest.next() {
        if character != '\\' {
            made.push(character);
            continue;
        }
        match rest.next() {
            Some('n') => made.push('\n'),
            Some('r') => made.push('\r'),
            Some('t') => made.push('\t'),
            Some('\\') => made.push('\\'),
            Some('x') => made.push(numbered(&mut rest, 2)),
            Some('u') => made.push(numbered(&mut rest, 4)),
            other => panic!("An escape that the page does not name: {other:?} in {shown}"),
        }
    }
    made.into_bytes()
}

fn numbered(rest: &mut std::str::Chars, digits: usize) -> char {
    let hex: String = rest.take(digits).collect();
    let number = u32::from_str_radix(&hex, 16).expect("hexadecimal digits");
    char::from_u32(number).expect("a character")
}
