//! The rows of the program leaf_samples: what each leaf is given, and what it must write or answer. docs/ORACLE.md describes the list's form.

/// The numbers of the styles in a deck.
const PLAIN: u8 = 0;
const SINGLE: u8 = 1;
const DOUBLE: u8 = 2;
const LITERAL: u8 = 3;
const FOLDED: u8 = 4;

#[derive(Debug, Clone, Copy, PartialEq)]
pub enum Place {
    Root,
    Flow,
    Key,
}

#[derive(Debug, Clone, Copy, PartialEq)]
pub enum Test {
    WellFormed,
    StartsBom,
    UnsafeInFlow,
    Quotable,
    HasBreakable,
}

use Test::{HasBreakable, Quotable, StartsBom, UnsafeInFlow, WellFormed};

/// What is run, with its numbers.
#[derive(Debug, Clone, PartialEq)]
pub enum Leaf {
    /// The body of a text in quotes.
    Body { single: bool },
    /// The same, folded: it begins at the column, and later lines at the indent.
    Folded {
        single: bool,
        column: usize,
        indent: usize,
        width: usize,
    },
    /// Header and body of a block scalar.
    Block { marker: u8, indent: usize },
    /// A text, an inline comment after so many spaces, and the line's end.
    Comment { spaces: usize },
    /// A raw text as the whole document, with an inline comment or without one.
    Raw { noted: bool },
    /// The inline comments of the nodes at two places.
    Comments { first: u8, second: usize },
    /// A scalar; in flow it is the first item and stands at column 1.
    Scalar {
        place: Place,
        style: u8,
        width: usize,
        single_quotes: bool,
    },
    /// What stands between two entries, where the first ends at the column.
    Separator {
        key: bool,
        indent: usize,
        column: usize,
        width: usize,
    },
    /// Whether a character is not printable.
    NonPrintable { character: u32, answer: bool },
    /// A test of a text.
    Test { test: Test, answer: bool },
    /// A deck through the judge: the refusal and its place, or 0 and the number of documents.
    Deck { number: usize, place: usize },
}

/// A row. The note is a comment, the text of a block scalar again, or a deck's pool.
#[derive(Debug, Clone, PartialEq)]
pub struct Row {
    pub name: &'static str,
    pub leaf: Leaf,
    pub text: Vec<u8>,
    pub note: Vec<u8>,
    pub want: Vec<u8>,
}

/// All rows, always the same.
pub fn rows() -> Vec<Row> {
    let tables = [
        quotes_of_document_01(),
        doubles(),
        singles(),
        folds(),
        edges(),
        lines_of_document_01(),
        blocks(),
        pens(),
        scalars_of_document_01(),
        flows(),
        widths(),
        styles(),
        separators(),
        printable(),
        well_formed(),
        tests(),
        documents(),
        odd(),
        kinds(),
        fields(),
        orders(),
        places(),
        texts(),
        ends(),
        depths(),
    ];
    tables.into_iter().flatten().collect()
}

/// The list as the program reads it.
pub fn encode(rows: &[Row]) -> Vec<u8> {
    let mut made = word(rows.len()).to_vec();
    for row in rows {
        let (kind, style, numbers, follow) = head(&row.leaf);
        let parts = [row.name.as_bytes(), &row.text, &row.note, &row.want];
        made.extend([kind, style]);
        made.extend(numbers.into_iter().flat_map(word));
        made.extend(follow);
        made.extend(parts.into_iter().flat_map(|part| word(part.len())));
        made.extend(parts.concat());
    }
    made
}

fn word(number: usize) -> [u8; 2] {
    u16::try_from(number).unwrap().to_le_bytes()
}

const BLOCK_BODY: u8 = 1;
const INLINE_COMMENT: u8 = 2;
const LINE_END: u8 = 3;

/// Kind, style, the four numbers, and the two steps that follow the first.
fn head(leaf: &Leaf) -> (u8, u8, [usize; 4], [u8; 2]) {
    match *leaf {
        Leaf::Block { marker, indent } => (4, marker, [0, indent, 0, 0], [BLOCK_BODY, 0]),
        Leaf::Comment { spaces } => (5, 0, [0, spaces, 0, 0], [INLINE_COMMENT, LINE_END]),
        Leaf::Raw { noted: false } => (6, 0, [0; 4], [LINE_END, 0]),
        Leaf::Raw { noted: true } => (6, 0, [0, 1, 0, 0], [INLINE_COMMENT, LINE_END]),
        Leaf::Comments { first, second } => (7, first, [0, 1, second, 0], [INLINE_COMMENT, 0]),
        _ => {
            let (kind, style, numbers) = alone(leaf);
            (kind, style, numbers, [0, 0])
        }
    }
}

/// The same of leaves that are one step.
fn alone(leaf: &Leaf) -> (u8, u8, [usize; 4]) {
    match *leaf {
        Leaf::Body { single } => (0, 0, [0, 0, 0, single.into()]),
        Leaf::Folded {
            single,
            column,
            indent,
            width,
        } => (1, 0, [column, indent, width, single.into()]),
        Leaf::Scalar {
            place,
            style,
            width,
            single_quotes,
        } => {
            let (flow, key) = (place == Place::Flow, place == Place::Key);
            let numbers = [flow.into(), single_quotes.into(), width, key.into()];
            (2, style, numbers)
        }
        Leaf::Separator {
            key,
            indent,
            column,
            width,
        } => (3, 0, [column, indent, width, key.into()]),
        Leaf::NonPrintable { character, answer } => {
            let (low, high) = (character % 65536, character / 65536);
            (8, 0, [answer.into(), low as usize, high as usize, 0])
        }
        Leaf::Test { test, answer } => (9 + test as u8, 0, [answer.into(), 0, 0, 0]),
        Leaf::Deck { number, place } => (14, 0, [number, place, 0, 0]),
        _ => panic!("{leaf:?} has more than one step."),
    }
}

// ---- rows by their families

fn row(name: &'static str, leaf: Leaf, text: &[u8], want: &[u8]) -> Row {
    Row {
        name,
        leaf,
        text: text.to_vec(),
        note: Vec::new(),
        want: want.to_vec(),
    }
}

fn noted(row: Row, note: &[u8]) -> Row {
    Row {
        note: note.to_vec(),
        ..row
    }
}

fn double(name: &'static str, text: &[u8], want: &[u8]) -> Row {
    row(name, Leaf::Body { single: false }, text, want)
}

fn single(name: &'static str, text: &[u8], want: &[u8]) -> Row {
    row(name, Leaf::Body { single: true }, text, want)
}

/// In double quotes.
fn fold(
    name: &'static str,
    text: &[u8],
    column: usize,
    indent: usize,
    width: usize,
    want: &[u8],
) -> Row {
    let leaf = Leaf::Folded {
        single: false,
        column,
        indent,
        width,
    };
    row(name, leaf, text, want)
}

/// In single quotes, from column 0 to column 1.
fn fold_single(name: &'static str, text: &[u8], width: usize, want: &[u8]) -> Row {
    let leaf = Leaf::Folded {
        single: true,
        column: 0,
        indent: 1,
        width,
    };
    row(name, leaf, text, want)
}

fn block(name: &'static str, text: &[u8], marker: u8, indent: usize, want: &[u8]) -> Row {
    noted(row(name, Leaf::Block { marker, indent }, text, want), text)
}

/// An inline comment behind `null`.
fn comment(name: &'static str, note: &[u8], spaces: usize, want: &[u8]) -> Row {
    noted(row(name, Leaf::Comment { spaces }, b"null", want), note)
}

fn comments(name: &'static str, first: u8, second: usize, want: &[u8]) -> Row {
    noted(
        row(name, Leaf::Comments { first, second }, b"c", want),
        b"d",
    )
}

fn raw(name: &'static str, text: &[u8], want: &[u8]) -> Row {
    row(name, Leaf::Raw { noted: false }, text, want)
}

fn raw_noted(name: &'static str, text: &[u8], want: &[u8]) -> Row {
    noted(row(name, Leaf::Raw { noted: true }, text, want), b"c")
}

fn scalar(place: Place, style: u8, width: usize, single_quotes: bool) -> Leaf {
    Leaf::Scalar {
        place,
        style,
        width,
        single_quotes,
    }
}

fn root(name: &'static str, style: u8, width: usize, text: &[u8], want: &[u8]) -> Row {
    row(name, scalar(Place::Root, style, width, false), text, want)
}

fn flow(name: &'static str, style: u8, width: usize, text: &[u8], want: &[u8]) -> Row {
    row(name, scalar(Place::Flow, style, width, false), text, want)
}

fn key(name: &'static str, style: u8, width: usize, text: &[u8], want: &[u8]) -> Row {
    row(name, scalar(Place::Key, style, width, false), text, want)
}

/// A plain scalar in flow, where single quotes are asked for.
fn asked(name: &'static str, width: usize, text: &[u8], want: &[u8]) -> Row {
    row(name, scalar(Place::Flow, PLAIN, width, true), text, want)
}

fn separator(
    name: &'static str,
    key: bool,
    indent: usize,
    column: usize,
    width: usize,
    want: &[u8],
) -> Row {
    let leaf = Leaf::Separator {
        key,
        indent,
        column,
        width,
    };
    row(name, leaf, b"", want)
}

fn character(name: &'static str, character: u32, answer: bool) -> Row {
    row(name, Leaf::NonPrintable { character, answer }, b"", b"")
}

fn test(name: &'static str, test: Test, text: &[u8], answer: bool) -> Row {
    row(name, Leaf::Test { test, answer }, text, b"")
}

/// A deck in hexadecimal that holds so many documents.
fn holds(name: &'static str, hex: &str, pool: &[u8], documents: usize) -> Row {
    refused(name, hex, pool, 0, documents)
}

/// A deck in hexadecimal that is refused by this number at this place.
fn refused(name: &'static str, hex: &str, pool: &[u8], number: usize, place: usize) -> Row {
    let byte = |at: usize| u8::from_str_radix(&hex[at..at + 2], 16).unwrap();
    let deck: Vec<u8> = (0..hex.len()).step_by(2).map(byte).collect();
    noted(row(name, Leaf::Deck { number, place }, &deck, b""), pool)
}

/// A null below sequences of one item, of this depth together.
fn tower(name: &'static str, depth: usize, number: usize, place: usize) -> Row {
    let hex = "23000100".repeat(depth - 1) + "20";
    refused(name, &hex, b"", number, place)
}

// ---- the tables: those called after document 01 have its sample lines, and decks its rules; the others expect the Rust's answer

fn quotes_of_document_01() -> Vec<Row> {
    vec![
        double("double U+0001", b"\x01", b"\\x01"),
        double("double U+FFFE", b"\xef\xbf\xbe", b"\\ufffe"),
        double("double U+0085", b"\xc2\x85", b"\xc2\x85"),
        fold("fold at 5", b"aa bb cc", 0, 1, 5, b"aa bb\n cc"),
        fold("fold at 4", b"aa bb cc", 0, 1, 4, b"aa\n bb\n cc"),
        fold("two spaces at 1", b"a  b", 0, 1, 1, b"a  b"),
        fold("two spaces at 100", b"a  b", 0, 1, 100, b"a  b"),
    ]
}

fn doubles() -> Vec<Row> {
    vec![
        double("double nothing", b"", b""),
        double("double quote", b"a\"b", b"a\\\"b"),
        double("double backslash", b"\\", b"\\\\"),
        double("double LF CR tab NUL", b"\n\r\t\x00", b"\\n\\r\\t\\0"),
        double("double U+007F", b"~\x7f", b"~\\x7f"),
        double("double U+0080", b"\xc2\x80\xc2\x9f", b"\\x80\\x9f"),
        double("double U+FFFF", b"\xef\xbf\xbf", b"\\uffff"),
        double("U+1F600", b"\xf0\x9f\x98\x80", b"\xf0\x9f\x98\x80"),
        double("double apostrophe", b"it's", b"it's"),
    ]
}

fn singles() -> Vec<Row> {
    vec![
        single("single apostrophe", b"it's", b"it''s"),
        single("single two apostrophes", b"''", b"''''"),
        single("single quote and backslash", b"\"\\", b"\"\\"),
        single("single LF", b"a\nb", b"a\nb"),
    ]
}

fn folds() -> Vec<Row> {
    vec![
        fold("fold at 0", b"a b", 0, 1, 0, b"a\n b"),
        fold("fold at 8", b"aa bb cc", 0, 1, 8, b"aa bb cc"),
        fold("fold from 3", b"aa bb cc", 3, 1, 5, b"aa\n bb\n cc"),
        fold("fold to 4", b"aa bb cc", 0, 4, 6, b"aa bb\n    cc"),
    ]
}

fn edges() -> Vec<Row> {
    vec![
        fold("first space stays", b" a b", 0, 1, 1, b" a\n b"),
        fold("three spaces stay", b"a   b c", 0, 1, 1, b"a   b\n c"),
        fold("an escape counts", b"a \x01", 0, 1, 5, b"a\n \\x01"),
        fold("bytes count", b"a \xc3\xa9", 0, 1, 3, b"a\n \xc3\xa9"),
        fold("a line break is escaped", b"a\n b", 0, 1, 3, b"a\\n\n b"),
        fold_single("an apostrophe counts two", b"a '", 3, b"a\n ''"),
    ]
}

fn lines_of_document_01() -> Vec<Row> {
    vec![
        block("literal nothing", b"", b'|', 2, b"|-\n\n"),
        block("literal line break", b"\n", b'|', 2, b"|+\n\n"),
        block("literal line", b"a\n", b'|', 2, b"|\n  a\n"),
        raw("raw 0x1F", b"0x1F", b"0x1F"),
        comments("one node's comment once", 7, 7, b" # c"),
        comments("two nodes' comments", 7, 8, b" # c # d"),
    ]
}

fn blocks() -> Vec<Row> {
    vec![
        block("literal without a break", b"a", b'|', 2, b"|-\n  a\n"),
        block("two lines", b"a\nb", b'|', 4, b"|-\n    a\n    b\n"),
        block("literal kept", b"a\n\n", b'|', 2, b"|+\n  a\n\n"),
        block("empty line", b"a\n\nb\n", b'|', 2, b"|\n  a\n\n  b\n"),
        block("literal at column 0", b"a\n", b'|', 0, b"|\na\n"),
        block("folded line", b"a b\n", b'>', 2, b">\n  a b\n"),
    ]
}

fn pens() -> Vec<Row> {
    vec![
        comment("comment", b"c", 1, b"null # c\n"),
        comment("comment at three spaces", b"c", 3, b"null   # c\n"),
        comment("comment of no text", b"", 1, b"null #\n"),
        raw("raw that ends its line", b"|\n a\n", b"|\n a\n"),
        raw("raw that ends in CR", b"a\r", b"a\r\n"),
        raw("raw nothing", b"", b""),
        raw_noted("raw and a comment", b"0x1F", b"0x1F # c\n"),
    ]
}

fn scalars_of_document_01() -> Vec<Row> {
    vec![
        flow("flow x,y", PLAIN, 0, b"x,y", b"\"x,y\""),
        flow("flow literal", LITERAL, 0, b"a", b"\"a\""),
        key("key never folds", DOUBLE, 1, b"a b", b"\"a b\""),
    ]
}

fn flows() -> Vec<Row> {
    vec![
        root("x,y at the root", PLAIN, 0, b"x,y", b"x,y"),
        flow("flow colon and space", PLAIN, 0, b"a: b", b"\"a: b\""),
        flow("flow colon", PLAIN, 0, b"a:b", b"a:b"),
        flow("flow last colon", PLAIN, 0, b"a:", b"\"a:\""),
        flow("flow bracket", PLAIN, 0, b"[", b"\"[\""),
        asked("single quotes", 0, b"x,y", b"'x,y'"),
        asked("no single quotes: apostrophe", 0, b"',", b"\"',\""),
        asked("no single quotes: tab", 0, b"\t,", b"\"\\t,\""),
    ]
}

fn widths() -> Vec<Row> {
    vec![
        root("as wide as the line", PLAIN, 5, b"aa bb", b"aa bb"),
        root("too wide", PLAIN, 4, b"aa bb", b"\"aa\n bb\""),
        root("too wide to fold", PLAIN, 3, b"aaaa", b"aaaa"),
        flow("too wide in flow", PLAIN, 5, b"aa bb", b"\"aa\n bb\""),
        asked("too wide, single quotes", 5, b"aa bb", b"'aa\n bb'"),
        key("too wide as a key", PLAIN, 4, b"aa bb", b"aa bb"),
        flow("literal in flow stays", LITERAL, 1, b"a b", b"\"a b\""),
    ]
}

fn styles() -> Vec<Row> {
    vec![
        root("U+FEFF", PLAIN, 0, b"\xef\xbb\xbfa", b"\"\xef\xbb\xbfa\""),
        root("later U+FEFF", PLAIN, 0, b"a\xef\xbb\xbf", b"a\xef\xbb\xbf"),
        root("single style", SINGLE, 0, b"it's", b"'it''s'"),
        root("double style", DOUBLE, 0, b"\t", b"\"\\t\""),
        root("double style folds", DOUBLE, 5, b"aa bb", b"\"aa\n bb\""),
        root("folded style", FOLDED, 0, b"a\n", b">\n  a\n"),
    ]
}

fn separators() -> Vec<Row> {
    vec![
        separator("separator", false, 2, 3, 0, b", "),
        separator("separator at the width", false, 2, 3, 4, b",\n  "),
        separator("separator below the width", false, 2, 3, 5, b", "),
        separator("separator in a key", true, 0, 3, 1, b", "),
    ]
}

fn printable() -> Vec<Row> {
    vec![
        character("U+0000 not printable", 0, true),
        character("U+0009 printable", 9, false),
        character("U+000D printable", 0xd, false),
        character("U+007F not printable", 0x7f, true),
        character("U+0085 printable", 0x85, false),
        character("U+009F not printable", 0x9f, true),
        character("U+FFFE not printable", 0xfffe, true),
        character("U+10000 printable", 0x10000, false),
    ]
}

fn well_formed() -> Vec<Row> {
    vec![
        test("no bytes", WellFormed, b"", true),
        test("ED 9F BF", WellFormed, b"\xed\x9f\xbf", true),
        test("F4 8F BF BF", WellFormed, b"a\xf4\x8f\xbf\xbfb", true),
        test("C0 overlong", WellFormed, b"\xc0\x80", false),
        test("E0 overlong", WellFormed, b"\xe0\x9f\xbf", false),
        test("F0 overlong", WellFormed, b"\xf0\x8f\xbf\xbf", false),
        test("surrogate", WellFormed, b"\xed\xa0\x80", false),
        test("F4 too large", WellFormed, b"\xf4\x90\x80\x80", false),
        test("cut", WellFormed, b"\xe2\x82", false),
        test("80 alone", WellFormed, b"\x80", false),
        test("FF never used", WellFormed, b"a\xff", false),
    ]
}

fn tests() -> Vec<Row> {
    vec![
        test("U+FEFF leads", StartsBom, b"\xef\xbb\xbf", true),
        test("no U+FEFF", StartsBom, b"a\xef\xbb\xbf", false),
        test("unsafe in flow", UnsafeInFlow, b"x,y", true),
        test("safe in flow", UnsafeInFlow, b"x:y", false),
        test("quotable", Quotable, b"a \xc2\x85", true),
        test("not quotable: it's", Quotable, b"it's", false),
        test("not quotable: U+FFFE", Quotable, b"\xef\xbf\xbe", false),
        test("breakable", HasBreakable, b"a b", true),
        test("not breakable", HasBreakable, b" a  b ", false),
    ]
}

fn documents() -> Vec<Row> {
    vec![
        holds("no documents", "", b"", 0),
        holds("a null", "20", b"", 1),
        holds("three nulls", "202020", b"", 3),
        holds("a: 1", "24000100210000010000210100010000", b"a1", 1),
        holds("two documents", "230100002200000100", b"a", 2),
    ]
}

fn odd() -> Vec<Row> {
    vec![
        holds("all marks", "09000000007f20", b"", 1),
        holds("no id", "03000001000000010000ffffffff20", b"a", 1),
        holds("bad bytes unnamed", "2201000100", b"\xffa\xc3", 1),
    ]
}

fn kinds() -> Vec<Row> {
    vec![
        refused("kind 00", "00", b"", 3, 0),
        refused("kind 25 after a null", "2025", b"", 3, 1),
        refused("a kind and no body", "21", b"", 3, 0),
        refused("a body cut short", "202100000000", b"", 3, 1),
    ]
}

fn fields() -> Vec<Row> {
    vec![
        refused("style 5", "210000000005", b"", 3, 0),
        refused("mark 128", "09000000008020", b"", 3, 0),
        refused("presence 2", "030000000000000000020000000020", b"", 3, 0),
        refused("3 before 4", "210000010005", b"", 3, 0),
    ]
}

fn orders() -> Vec<Row> {
    vec![
        refused("anchor before tag", "0200000000010000000020", b"", 3, 5),
        refused("two tags", "0100000000010000000020", b"", 3, 5),
        refused("08 before 06", "0800000000060000000020", b"", 3, 5),
    ]
}

fn places() -> Vec<Row> {
    vec![
        refused("one byte past the pool", "2200000200", b"a", 4, 0),
        refused("no bytes past the pool", "2202000000", b"a", 4, 0),
    ]
}

fn texts() -> Vec<Row> {
    vec![
        refused("not UTF-8", "202200000100", b"\xff", 5, 1),
        refused("half a character", "2200000100", b"\xc3\xa9", 5, 0),
        refused("its other half", "2201000100", b"\xc3\xa9", 5, 0),
        refused(
            "5 before 4",
            "030000010009000100000000000020",
            b"\xff",
            5,
            0,
        ),
        refused("the first record decides", "010900000025", b"", 4, 0),
    ]
}

fn ends() -> Vec<Row> {
    vec![
        refused("an item missing", "2300020020", b"", 7, 5),
        refused("a node missing", "090000000000", b"", 7, 6),
        refused("a later node missing", "200200000000", b"", 7, 6),
        refused("65535 items missing", "2300ffff", b"", 7, 4),
    ]
}

fn depths() -> Vec<Row> {
    vec![tower("depth 64", 64, 0, 1), tower("depth 65", 65, 6, 256)]
}
