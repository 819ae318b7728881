//! The readings of document 01 that docs/DECISIONS.md settles, each as a small deck with its number and place.

mod common;

use common::{hand, Hand, ALL, NULL};
use oracle::calls::{outcome, Call, Change, Settings};
use oracle::damage::{tower, Tower};
use oracle::encode::NullStyle;

const ONE_DOCUMENT: [Call; 4] = [
    Call::EmitRoundtrip,
    Call::EmitRoundtripWith(NullStyle::Null),
    Call::EmitRoundtripDump(Settings {
        null_style: NullStyle::Null,
        indent_sequences: false,
        explicit_end: false,
        indent: 0,
        indentless: false,
        single_quotes: false,
        width: 0,
    }),
    Call::LocalModified,
];

/// A document whose node at depth 64 holds what is put after this.
fn at_depth_65() -> Hand {
    let mut deck = tower(Tower::Sequences, 65, false).deck;
    deck.pop();
    hand(&deck)
}

#[test]
fn order_of_leading_records() {
    let head = hand(&[0x04, 0, 0, 0, 0, 0]);
    let inline = head.clone().bytes(&[0x05, 0, 0, 0, 0, 1]);
    let again = inline.clone().bytes(&head.deck).bytes(NULL);
    assert_eq!(again.refusal(), (3, 12));
    for kind in [0x04, 0x06, 0x08] {
        let twice = Hand::default().text(kind, "", &[0][..usize::from(kind == 4)]);
        let twice = twice.clone().bytes(&twice.deck).bytes(NULL);
        assert_eq!(twice.refusal(), (0, 0));
    }
    for kind in [0x01, 0x02, 0x07] {
        let twice = hand(&[kind, 0, 0, 0, 0, kind, 0, 0, 0, 0, 0x20]);
        assert_eq!(twice.refusal(), (3, 5));
    }
    assert_eq!(
        Hand::default()
            .layout(0, 0)
            .layout(0, 0)
            .bytes(NULL)
            .refusal(),
        (3, 6)
    );
    let include = Hand::default().include("", "", None);
    assert_eq!(
        include.clone().bytes(&include.deck).bytes(NULL).refusal(),
        (3, 14)
    );
}

#[test]
fn order_begins_anew_after_a_node() {
    let items = hand(&[0x23, 0, 2, 0]).layout(0, 0).bytes(NULL);
    let items = items.text(0x01, "!t", &[]).bytes(NULL);
    assert_eq!(items.refusal(), (0, 0));
    let documents = Hand::default().layout(0, 0).bytes(NULL).layout(0, 0);
    assert_eq!(documents.bytes(NULL).refusal(), (0, 0));
}

#[test]
fn out_of_order_and_cut_short_is_at_the_later_record() {
    let cut = Hand::default().text(0x02, "a", &[]).bytes(&[0x01, 0]);
    assert_eq!(cut.refusal(), (3, 5));
}

#[test]
fn unknown_kinds() {
    for kind in 0..=255 {
        let known = matches!(kind, 0x01..=0x09 | 0x20..=0x24);
        if !known {
            assert_eq!(hand(&[kind]).refusal(), (3, 0));
            assert_eq!(hand(&[0x20, kind, 0, 0, 0, 0]).refusal(), (3, 1));
        }
    }
}

#[test]
fn a_body_cut_short() {
    for (kind, length) in [
        (0x01, 4),
        (0x03, 13),
        (0x04, 5),
        (0x09, 5),
        (0x21, 5),
        (0x24, 3),
    ] {
        for there in 0..length {
            let cut = hand(NULL).bytes(&[kind]).bytes(&vec![0; there]);
            assert_eq!(cut.refusal(), (3, 1));
        }
    }
}

#[test]
fn the_deck_ends_between_records() {
    let leading = hand(NULL).text(0x01, "!t", &[]);
    assert_eq!(leading.refusal(), (7, 6));
    assert_eq!(hand(&[0x23, 0, 2, 0, 0x20]).refusal(), (7, 5));
    assert_eq!(hand(&[0x24, 0, 1, 0, 0x20]).refusal(), (7, 5));
    assert_eq!(hand(&[0x23, 0, 0, 0]).refusal(), (0, 0));
}

#[test]
fn bytes_without_a_meaning() {
    assert_eq!(hand(&[0x04, 0, 0, 0, 0, 2, 0x20]).refusal(), (3, 0));
    assert_eq!(hand(&[0x09, 0, 0, 0, 0, 128, 0x20]).refusal(), (3, 0));
    assert_eq!(
        hand(&[0x09, 255, 255, 255, 255, 127, 0x20]).refusal(),
        (0, 0)
    );
    assert_eq!(hand(&[0x05, 0, 0, 0, 0, 255, 0x20]).refusal(), (0, 0));
    assert_eq!(hand(&[0x21, 0, 0, 0, 0, 5]).refusal(), (3, 0));
    assert_eq!(hand(&[0x23, 2, 0, 0]).refusal(), (3, 0));
    assert_eq!(hand(&[0x24, 2, 0, 0]).refusal(), (3, 0));
}

/// An include over a pool of an `a` and a byte that is no UTF-8.
fn include(tag: (u16, u16), target: (u16, u16), present: u8) -> (usize, usize) {
    let record = hand(&[0x03]).reference(tag.0, tag.1);
    let mut record = record.reference(target.0, target.1);
    record = record.bytes(&[present, 0, 0, 0, 0]).bytes(NULL);
    record.pool = b"a\xff".to_vec();
    record.refusal()
}

#[test]
fn order_within_one_record() {
    let (good, past, bad) = ((0, 1), (1, 2), (1, 1));
    assert_eq!(include(good, good, 1), (0, 0));
    assert_eq!(include(past, bad, 2), (3, 0));
    assert_eq!(include(past, bad, 0), (4, 0));
    assert_eq!(include(bad, past, 0), (5, 0));
    assert_eq!(include(good, past, 0), (4, 0));
    assert_eq!(include(good, bad, 1), (5, 0));
    assert_eq!(hand(&[0x21, 0, 0, 1, 0, 5]).refusal(), (3, 0));
}

#[test]
fn an_earlier_record_beats_a_later_one() {
    let bad = Hand::default().text(0x02, b"\xff", &[]);
    assert_eq!(bad.clone().bytes(&[0xff]).refusal(), (5, 0));
    assert_eq!(bad.clone().bytes(&[0x01, 9, 9, 9, 9]).refusal(), (5, 0));
    assert_eq!(bad.refusal(), (5, 0));
    assert_eq!(
        hand(NULL).bytes(&[0x01, 9, 0, 0, 0, 0xff]).refusal(),
        (4, 1)
    );
}

#[test]
fn references_at_the_edge() {
    let reference = |offset, length, pool: usize| {
        let mut made = hand(&[0x22]).reference(offset, length);
        made.pool = vec![b'a'; pool];
        made.ask(ALL).number
    };
    assert_eq!(reference(3, 0, 3), 0);
    assert_eq!(reference(4, 0, 3), 4);
    assert_eq!(reference(2, 1, 3), 0);
    assert_eq!(reference(2, 2, 3), 4);
    assert_eq!(reference(0, 0, 0), 0);
    assert_eq!(reference(65_535, 65_535, 65_536), 4);
    assert_eq!(reference(65_535, 1, 65_536), 0);
}

#[test]
fn every_referenced_text_is_judged_and_no_other() {
    // The raw text of a changed scalar, and a directive below the root, are not printed.
    let raw = Hand::default().text(0x07, b"\xc3", &[]);
    assert_eq!(raw.layout(0, 1).plain("a").refusal(), (5, 0));
    let directive = hand(&[0x23, 0, 1, 0]).text(0x08, b"\xc3", &[]);
    assert_eq!(directive.bytes(NULL).refusal(), (5, 4));
    // Two references that part one character are both bad, though the bytes they share are good.
    let mut split = hand(&[0x23, 0, 2, 0]).bytes(&[0x22]).reference(0, 1);
    split.pool = "\u{e9}".into();
    assert_eq!(split.refusal(), (5, 4));
    let mut unread = hand(&[0x22]).reference(1, 1);
    unread.pool = b"\xffa\xff".to_vec();
    assert_eq!(unread.refusal(), (0, 0));
}

#[test]
fn depth_65_comes_last_in_its_record() {
    let place = 4 * 64;
    assert_eq!(at_depth_65().bytes(NULL).refusal(), (6, place));
    assert_eq!(at_depth_65().refusal(), (7, place));
    assert_eq!(
        at_depth_65().bytes(&[0x21, 0, 0, 0, 0, 5]).refusal(),
        (3, place)
    );
    assert_eq!(
        at_depth_65().bytes(&[0x21, 0, 0, 1, 0, 0]).refusal(),
        (4, place)
    );
    assert_eq!(at_depth_65().text(0x22, b"\xff", &[]).refusal(), (5, place));
    assert_eq!(at_depth_65().bytes(&[0x23, 0, 9, 9]).refusal(), (6, place));
    assert_eq!(at_depth_65().bytes(&[0x23, 0, 9]).refusal(), (3, place));
    let led = at_depth_65().layout(0, 0);
    assert_eq!(led.clone().refusal(), (7, place + 6));
    assert_eq!(led.clone().bytes(NULL).refusal(), (6, place + 6));
    assert_eq!(led.layout(0, 0).bytes(NULL).refusal(), (3, place + 6));
    assert_eq!(
        at_depth_65()
            .bytes(&[0x01, 1, 0, 0, 0])
            .bytes(NULL)
            .refusal(),
        (4, place)
    );
    // A fault behind it comes too late.
    assert_eq!(
        at_depth_65().bytes(NULL).bytes(&[0xff]).refusal(),
        (6, place)
    );
}

#[test]
fn an_empty_collection_at_depth_64() {
    for kind in [0x23, 0x24] {
        let mut deck = tower(Tower::Sequences, 64, true).deck;
        deck.pop();
        assert_eq!(hand(&deck).bytes(&[kind, 0, 0, 0]).refusal(), (0, 0));
    }
}

#[test]
fn none_or_several_documents() {
    for call in ONE_DOCUMENT {
        for count in [0, 2, 3] {
            let outcome = hand(&vec![0x20; count]).ask(call);
            assert_eq!((outcome.number, outcome.place), (8, 0));
            assert!(!outcome.yes);
        }
        assert_eq!(hand(NULL).ask(call).number, 0);
        // 7 comes before 8.
        assert_eq!(hand(&[0x20, 0x20, 0x23, 0, 1, 0]).ask(call).number, 7);
    }
    for call in [ALL, Call::CollectChangedIncludeChanges] {
        let outcome = Hand::default().ask(call);
        assert_eq!((outcome.number, outcome.length, outcome.count), (0, 0, 0));
    }
}

#[test]
fn settings_come_first_then_sizes() {
    let over = |indent, width| {
        Call::EmitRoundtripDump(Settings {
            indent,
            width,
            ..Settings::default()
        })
    };
    let mut lent = hand(&[0xff]).lent(4, 0);
    assert_eq!(outcome(&over(16, 65_535), &lent).number, 3);
    lent.deck.resize(65_537, 0);
    assert_eq!(outcome(&over(17, 0), &lent).number, 1);
    assert_eq!(outcome(&over(0, 65_536), &lent).number, 1);
    assert_eq!(outcome(&over(16, 65_535), &lent).number, 2);
    assert_eq!(outcome(&over(17, 0), &lent).output, [0xaa; 4]);
}

#[test]
fn sizes_of_what_is_lent() {
    let call = Call::CollectChangedIncludeChanges;
    let number = |deck: usize, pool: usize, output: usize, list: usize| {
        let mut lent = hand(&vec![0x20; deck]).lent(output, list);
        lent.pool = vec![0xff; pool];
        outcome(&call, &lent).number
    };
    assert_eq!(number(65_536, 65_536, 1_048_576, 4_096), 0);
    assert_eq!(number(65_537, 0, 0, 0), 2);
    assert_eq!(number(0, 65_537, 0, 0), 2);
    assert_eq!(number(0, 0, 1_048_577, 0), 2);
    assert_eq!(number(0, 0, 0, 4_097), 2);
}

/// Two changed includes, `null\n` each.
fn two_files() -> Hand {
    let items = hand(&[0x23, 0, 2, 0]);
    let first = items.include("!i", "a", Some(3)).layout(0, 1).bytes(NULL);
    first.include("!i", "b", Some(3)).layout(0, 1).bytes(NULL)
}

#[test]
fn want_of_room() {
    let call = Call::CollectChangedIncludeChanges;
    let of = |output, list| outcome(&call, &two_files().lent(output, list));
    assert_eq!(
        (of(0, 1).number, of(0, 0).number, of(9, 1).number),
        (9, 9, 9)
    );
    assert_eq!((of(9, 2).number, of(0, 2).number), (10, 10));
    for short in [of(9, 2), of(20, 1)] {
        assert_eq!((short.place, short.length, short.count), (0, 0, 0));
        assert!(short.output.iter().all(|&byte| byte == 0));
        assert!(short.list.iter().all(|&entry| entry == Change::default()));
    }
    let exact = of(10, 2);
    assert_eq!((exact.number, exact.length, exact.count), (0, 10, 2));
    assert_eq!(exact.output, b"null\nnull\n");
    let entry = |start| Change {
        id: 3,
        start,
        length: 5,
    };
    assert_eq!(exact.list, [entry(0), entry(5)]);
    let ample = of(12, 3);
    assert_eq!(ample.output, b"null\nnull\n\xaa\xaa");
    assert_eq!(ample.list[2].id, 9);
}

#[test]
fn room_of_none() {
    let empty = outcome(&ALL, &Hand::default().lent(0, 0));
    assert_eq!((empty.number, empty.length), (0, 0));
    let raw = Hand::default().text(0x07, "", &[]).plain("x");
    let nothing = outcome(&Call::EmitRoundtrip, &raw.lent(0, 0));
    // The line break after an empty raw text is not closed but begun, and is dropped all the same.
    assert_eq!((nothing.number, nothing.length), (0, 0));
    assert_eq!(outcome(&ALL, &hand(NULL).lent(0, 0)).number, 10);
}

#[test]
fn the_dropped_newline_leaves_its_byte() {
    let raw = Hand::default().text(0x07, "0x1F", &[]).plain("31");
    let call = Call::EmitRoundtrip;
    assert_eq!(outcome(&call, &raw.lent(3, 0)).number, 10);
    let exact = outcome(&call, &raw.lent(4, 0));
    assert_eq!((exact.number, exact.length), (0, 4));
    assert_eq!(outcome(&call, &raw.lent(5, 0)).output, b"0x1F\xaa");
}

#[test]
fn a_newline_is_dropped_only_right_behind_the_raw_text() {
    let raw = |end: &str| {
        Hand::default()
            .text(0x07, format!("r{end}"), &[])
            .plain("x")
    };
    assert_eq!(raw("\n").emitted(), "r\n");
    assert_eq!(raw("\r").emitted(), "r\r\n");
    let inline = Hand::default().text(0x05, "c", &[1]);
    assert_eq!(inline.text(0x07, "r", &[]).plain("x").emitted(), "r # c\n");
    let foot = Hand::default().text(0x06, "c", &[]);
    assert_eq!(foot.text(0x07, "r", &[]).plain("x").emitted(), "r\n# c\n");
}

#[test]
fn every_file_begins_afresh() {
    let items = hand(&[0x23, 0, 2, 0]).include("!i", "a", Some(1));
    let first = items
        .layout(0, 64)
        .bytes(&[0x23, 0, 2, 0])
        .layout(0, 1)
        .bytes(NULL);
    let first = first.text(0x07, "r", &[]).plain("x");
    let second = first.include("!i", "b", Some(2)).layout(0, 1).plain("y");
    let outcome = second.ask(Call::CollectChangedIncludeChanges);
    assert_eq!(outcome.count, 2);
    assert_eq!(
        &outcome.output[..outcome.length],
        "\u{feff}-\n- ry\n".as_bytes()
    );
    assert_eq!((outcome.list[1].start, outcome.list[1].length), (8, 2));
}

#[test]
fn raw_texts() {
    // In flow and under any style the raw text is written as it is.
    let flow = hand(&[0x23, 1, 1, 0]).text(0x07, "x,y", &[]);
    assert_eq!(flow.text(0x21, "z", &[2]).emitted(), "[x,y]\n");
    // An empty one counts as raw.
    let empty = hand(&[0x23, 0, 1, 0]).text(0x07, "", &[]).plain("z");
    assert_eq!(empty.emitted(), "- ");
    // Only scalars have one, and an empty plain value without an inline comment does not write it.
    let null = hand(&[0x23, 0, 1, 0]).text(0x07, "r", &[]);
    assert_eq!(null.clone().bytes(NULL).emitted(), "-\n");
    assert_eq!(null.clone().plain("").emitted(), "-\n");
    assert_eq!(null.text(0x22, "k", &[]).emitted(), "- *k\n");
    let commented = hand(&[0x23, 0, 1, 0]).text(0x05, "c", &[1]);
    assert_eq!(
        commented.text(0x07, "r", &[]).plain("").emitted(),
        "- r # c\n"
    );
}

#[test]
fn a_file_carries_the_records_of_its_include() {
    let include = Hand::default().include("!i", "a", Some(1));
    let full = include.text(0x04, "h", &[0]).text(0x05, "i", &[2]);
    let full = full.text(0x06, "f", &[]).text(0x08, "YAML 1.2", &[]);
    let full = full.layout(0, 1 + 32 + 64).plain("v");
    let file = full.written(Call::CollectChangedIncludeChanges);
    assert_eq!(file, "\u{feff}%YAML 1.2\n---\n# h\nv  # i\n# f\n");
}
