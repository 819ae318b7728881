//! The rows of the program leaf_samples expect what the Rust answers: every row is replayed here, and the program's files are held to the rows.

mod common;

use common::{hand, Hand, NULL};
use oracle::calls::{Call, Settings};
use oracle::leaf_rows::{self, Leaf, Place, Row, Test};
use oracle::{judge, leaves};

#[test]
fn every_row_is_what_the_rust_answers() {
    let mut replayed = 0;
    let mut by_document = 0;
    for row in leaf_rows::rows() {
        match replay(&row) {
            Some((came, wanted)) => {
                assert_eq!(came, wanted, "{}", row.name);
                replayed += 1;
            }
            None => by_document += 1,
        }
    }
    // Document 01 alone speaks of two nodes' comments by place.
    assert_eq!((replayed, by_document), (135, 2));
}

/// The program reads the rows from standard input.
#[test]
fn the_file_is_the_rows() {
    let file = concat!(env!("CARGO_MANIFEST_DIR"), "/../crates/leaf_samples/stdin");
    let same = std::fs::read(file).expect(file) == leaf_rows::encode(&leaf_rows::rows());
    assert!(same, "oracle/leaf_rows crates/leaf_samples/stdin");
}

/// The program's output has a line for each row, and each is as expected.
#[test]
fn the_lines_are_the_names() {
    let file = concat!(env!("CARGO_MANIFEST_DIR"), "/../crates/leaf_samples/stdout");
    let line = |row: Row| format!("{}: ok\n", row.name);
    let lines: String = leaf_rows::rows().into_iter().map(line).collect();
    assert_eq!(std::fs::read_to_string(file).expect(file), lines);
}

fn text(row: &Row) -> &str {
    std::str::from_utf8(&row.text).unwrap()
}

/// What came and what the row wants, both in words; none where the row is document 01's alone.
fn replay(row: &Row) -> Option<(String, String)> {
    let came = match row.leaf {
        Leaf::Body { single } => body(text(row), single).into_bytes(),
        Leaf::Folded {
            single,
            column,
            indent,
            width,
        } => leaves::folded(&body(text(row), single), column, indent, width),
        Leaf::Block { marker, indent } => {
            let mut made = leaves::block_scalar_header(text(row), marker);
            made.extend(leaves::block_scalar_body(text(row), indent));
            made
        }
        Leaf::Comment { spaces } => commented(row, spaces),
        Leaf::Raw { noted } => raw(row, noted),
        Leaf::Comments { .. } => return None,
        Leaf::Scalar { .. } => scalar(row),
        Leaf::Separator { .. } => separator(row),
        Leaf::NonPrintable { character, answer } => {
            let came = leaves::is_non_printable(char::from_u32(character).unwrap());
            return Some((came.to_string(), answer.to_string()));
        }
        Leaf::Test { test, answer } => {
            return Some((truth(test, row).to_string(), answer.to_string()));
        }
        Leaf::Deck { number, place } => return Some((verdict(row), format!("{number} {place}"))),
    };
    let shown = |bytes: &[u8]| String::from_utf8_lossy(bytes).into_owned();
    Some((shown(&came), shown(&row.want)))
}

fn body(text: &str, single: bool) -> String {
    if single {
        leaves::single_quoted_body(text)
    } else {
        leaves::double_quoted_body(text)
    }
}

/// The row's text is the null that carries the comment.
fn commented(row: &Row, spaces: usize) -> Vec<u8> {
    assert_eq!(row.text, b"null", "{}", row.name);
    let document = Hand::default().text(0x05, &row.note, &[spaces as u8]);
    document.bytes(NULL).emitted().into_bytes()
}

fn raw(row: &Row, noted: bool) -> Vec<u8> {
    let mut document = Hand::default();
    if noted {
        document = document.text(0x05, &row.note, &[1]);
    }
    let document = document.text(0x07, &row.text, &[]).plain("a");
    document.emitted().into_bytes()
}

/// A scalar as a document, as the one item of a flow sequence, or as the one key, without what stands around it.
fn scalar(row: &Row) -> Vec<u8> {
    let Leaf::Scalar {
        place,
        style,
        width,
        single_quotes,
    } = row.leaf
    else {
        panic!("{} is no scalar.", row.name);
    };
    let settings = Settings {
        width,
        single_quotes,
        ..Settings::default()
    };
    let (front, back, start): (&[u8], _, _) = match place {
        Place::Root => (&[], "", ""),
        Place::Flow => (&[0x23, 1, 1, 0], "]\n", "["),
        Place::Key => (&[0x24, 0, 1, 0], ":\n", ""),
    };
    let mut document = hand(front).text(0x21, &row.text, &[style]);
    if place == Place::Key {
        document = document.bytes(NULL);
    }
    let whole = document.written(Call::EmitRoundtripDump(settings));
    let inside = whole.strip_prefix(start).unwrap();
    let inside = inside.strip_suffix(back).unwrap();
    // The line of a scalar that does not end its own is ended by the document.
    let own = place != Place::Root || style > 2;
    let inside = if own {
        inside
    } else {
        &inside[..inside.len() - 1]
    };
    inside.as_bytes().to_vec()
}

/// Between a first item that ends at the column and a second one.
fn separator(row: &Row) -> Vec<u8> {
    let Leaf::Separator {
        key,
        indent,
        column,
        width,
    } = row.leaf
    else {
        panic!("{} is no separator.", row.name);
    };
    let first = "x".repeat(column - 1);
    let settings = Settings {
        indent,
        width,
        ..Settings::default()
    };
    let front: &[u8] = if key { &[0x24, 0, 1, 0] } else { &[] };
    let pair = hand(front).bytes(&[0x23, 1, 2, 0]).plain(&first).plain("b");
    let document = if key { pair.bytes(NULL) } else { pair };
    let whole = document.written(Call::EmitRoundtripDump(settings));
    let inside = whole.strip_prefix(&format!("[{first}")).unwrap();
    inside.as_bytes()[..inside.find('b').unwrap()].to_vec()
}

/// The refusal and its place, or 0 and the number of documents.
fn verdict(row: &Row) -> String {
    match judge::read(&row.text, &row.note) {
        Ok(documents) => format!("0 {}", documents.len()),
        Err(refusal) => format!("{} {}", refusal.number, refusal.place),
    }
}

/// What the Rust says to a test.
fn truth(test: Test, row: &Row) -> bool {
    match test {
        Test::WellFormed => std::str::from_utf8(&row.text).is_ok(),
        // Of texts without the other's cause both are told by whether flow quotes them.
        Test::StartsBom | Test::UnsafeInFlow => leaves::quoted_in_flow(text(row)),
        Test::Quotable => leaves::single_quotable(text(row), false),
        Test::HasBreakable => leaves::has_breakable_space(text(row)),
    }
}
