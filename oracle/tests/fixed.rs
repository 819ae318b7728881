//! The fixed list says what the Rust answers: it is read here as docs/ORACLE.md describes it, knowing nothing of how it is written, and replayed.

use oracle::calls::{outcome, Call, Change, Lent, Settings};
use oracle::encode::NullStyle;
use oracle::fixed;
use std::collections::BTreeSet;

fn number(bytes: &[u8], at: usize, size: usize) -> usize {
    let digits = bytes[at..at + size].iter().rev();
    digits.fold(0, |number, &byte| 256 * number + usize::from(byte))
}

/// A piece's length, how often it stands there, and the piece.
fn expanded(coded: &[u8]) -> Vec<u8> {
    let mut made = Vec::new();
    let mut at = 0;
    while at < coded.len() {
        let length = number(coded, at, 2);
        let times = number(coded, at + 2, 2);
        let piece = &coded[at + 4..at + 4 + length];
        for _ in 0..times {
            made.extend_from_slice(piece);
        }
        at += 4 + length;
    }
    made
}

fn call(bytes: &[u8]) -> Call {
    let null_style = [NullStyle::Null, NullStyle::Empty, NullStyle::Tilde][usize::from(bytes[1])];
    match bytes[0] {
        0 => Call::EmitRoundtrip,
        1 => Call::EmitRoundtripWith(null_style),
        2 => Call::EmitRoundtripAllWith(null_style),
        3 => Call::EmitRoundtripDump(Settings {
            null_style,
            indent_sequences: bytes[2] & 1 != 0,
            explicit_end: bytes[2] & 2 != 0,
            indentless: bytes[2] & 4 != 0,
            single_quotes: bytes[2] & 8 != 0,
            indent: number(bytes, 4, 4),
            width: number(bytes, 8, 4),
        }),
        4 => Call::LocalModified,
        5 => Call::CollectChangedIncludeChanges,
        other => panic!("There is no call {other}."),
    }
}

/// FNV-1a by sums and products that do not wrap, as a program without wrapping multiplication has to do it.
fn hash(bytes: &[u8]) -> u64 {
    let half = 1u64 << 32;
    bytes
        .iter()
        .fold(0xcbf2_9ce4_8422_2325, |hash: u64, &byte| {
            let mixed = hash ^ u64::from(byte);
            let (high, low) = (mixed / half, mixed % half);
            // The prime is 2^40 + 435.
            let down = low * 435;
            let up = (high * 435 + down / half + (low % (1 << 24)) * 256) % half;
            up * half + down % half
        })
}

#[test]
fn every_case_is_what_the_rust_answers() {
    let list = fixed::encode(&fixed::list());
    let mut at = 4;
    let (mut calls, mut numbers) = (BTreeSet::new(), BTreeSet::new());
    for case in 0..number(&list, 0, 4) {
        let head = &list[at..at + 72];
        let field = |index: usize| number(head, 4 + 4 * index, 4);
        let deck_end = at + 72 + field(5);
        let change = Change {
            id: 9,
            start: 9,
            length: 9,
        };
        let lent = Lent {
            deck: expanded(&list[at + 72..deck_end]),
            pool: expanded(&list[deck_end..deck_end + field(7)]),
            output: vec![0xaa; field(2)],
            list: vec![change; field(3)],
        };
        assert_eq!(
            (lent.deck.len(), lent.pool.len()),
            (field(4), field(6)),
            "{case}"
        );
        let came = outcome(&call(head), &lent);
        let answer = [
            came.number,
            came.place,
            came.length,
            came.count,
            usize::from(came.yes),
        ];
        assert_eq!(answer, [8, 9, 10, 11, 12].map(field), "{case}");
        assert_eq!(hash(&came.output), number(head, 56, 8) as u64, "{case}");
        assert_eq!(
            hash(&fixed::list_bytes(&came.list)),
            number(head, 64, 8) as u64,
            "{case}"
        );
        calls.insert(head[0]);
        numbers.insert(came.number);
        at = deck_end + field(7);
    }
    assert_eq!(at, list.len());
    assert!(number(&list, 0, 4) >= 300);
    assert_eq!(
        (calls.len(), numbers.len()),
        (6, 11),
        "{calls:?} {numbers:?}"
    );
}

/// The program samples reads the list from a file.
#[test]
fn the_file_is_the_list() {
    let file = concat!(env!("CARGO_MANIFEST_DIR"), "/../crates/samples/data/cases");
    let same = std::fs::read(file).expect(file) == fixed::encode(&fixed::list());
    assert!(same, "oracle/fixed crates/samples/data/cases");
}

#[test]
fn both_ways_to_hash_agree() {
    for length in 0..200 {
        let bytes: Vec<u8> = (0..length)
            .map(|at: usize| (at * 37 + length) as u8)
            .collect();
        assert_eq!(hash(&bytes), fixed::hash(&bytes));
    }
    // From the description of the function.
    assert_eq!(fixed::hash(b"a"), 0xaf63_dc4c_8601_ec8c);
    assert_eq!(fixed::hash(b"foobar"), 0x8594_4171_f739_67e8);
}
