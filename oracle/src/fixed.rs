//! The fixed list: cases with the Rust's answers, in a form that a small program can read and check. docs/ORACLE.md describes the form.

use crate::calls::{
    self, Call, Change, Lent, Settings, MOST_DECK, MOST_LIST, MOST_OUTPUT, MOST_POOL,
};
use crate::damage::damage;
use crate::deck::{build, Deck, Pooling, POOLINGS};
use crate::encode::NullStyle;
use crate::extremes;
use crate::random::{lending, texts, trees, Rng};
use crate::recipes;
use crate::theorems;

/// What every byte of a lent output holds at entry, and every number of a lent list.
pub const ENTRY_BYTE: u8 = 0xaa;
pub const ENTRY_NUMBER: usize = 9;

pub struct Fixed {
    pub name: String,
    pub call: Call,
    pub lent: Lent,
}

/// The longest piece that is looked for as a run's.
const LONGEST_PIECE: usize = 24;

const PLAIN: Settings = Settings {
    null_style: NullStyle::Null,
    indent_sequences: false,
    explicit_end: false,
    indent: 0,
    indentless: false,
    single_quotes: false,
    width: 0,
};

/// The number of a call in the list.
pub fn number(call: &Call) -> u8 {
    match call {
        Call::EmitRoundtrip => 0,
        Call::EmitRoundtripWith(_) => 1,
        Call::EmitRoundtripAllWith(_) => 2,
        Call::EmitRoundtripDump(_) => 3,
        Call::LocalModified => 4,
        Call::CollectChangedIncludeChanges => 5,
    }
}

/// The list, always the same.
pub fn list() -> Vec<Fixed> {
    let mut made = List::default();
    made.samples();
    made.refusals();
    made.sizes();
    made.random();
    made.includes();
    made.limits();
    made.cases
}

#[derive(Default)]
struct List {
    cases: Vec<Fixed>,
}

impl List {
    fn add(&mut self, name: &str, call: Call, deck: &Deck, room: usize, list: usize) {
        let change = Change {
            id: ENTRY_NUMBER as u32,
            start: ENTRY_NUMBER,
            length: ENTRY_NUMBER,
        };
        let lent = Lent {
            deck: deck.deck.clone(),
            pool: deck.pool.clone(),
            output: vec![ENTRY_BYTE; if call.is_lent_output() { room } else { 0 }],
            list: vec![change; if call.is_lent_list() { list } else { 0 }],
        };
        let name = name.to_owned();
        self.cases.push(Fixed { name, call, lent });
    }

    /// A call with room for what is written, then with one byte less and, where there is a list, with one entry less.
    fn exact(&mut self, name: &str, call: Call, deck: &Deck) {
        let written = if calls::over_settings(&call) {
            calls::Written::default()
        } else {
            calls::unbounded(&call, &deck.deck, &deck.pool).unwrap_or_default()
        };
        let (room, list) = (written.bytes.len(), written.changes.len());
        if room > MOST_OUTPUT {
            return self.add(
                &format!("{name}, largest room"),
                call,
                deck,
                MOST_OUTPUT,
                list,
            );
        }
        self.add(&format!("{name}, exact"), call, deck, room, list);
        if call.is_lent_output() && room > 0 {
            self.add(
                &format!("{name}, one byte short"),
                call,
                deck,
                room - 1,
                list,
            );
        }
        if call.is_lent_list() && list > 0 {
            self.add(
                &format!("{name}, one entry short"),
                call,
                deck,
                room,
                list - 1,
            );
        }
    }

    /// Document 01's sample lines that are calls.
    fn samples(&mut self) {
        let tilde = Call::EmitRoundtripWith(NullStyle::Tilde);
        let all = Call::EmitRoundtripAllWith(NullStyle::Null);
        let step = |indent| Call::EmitRoundtripDump(Settings { indent, ..PLAIN });
        let pair = "24000100 2100000100 00";
        let samples: [(&str, Call, &str, &str); 18] = [
            ("no documents", all, "", ""),
            ("root null", Call::EmitRoundtrip, "20", ""),
            ("synthetic null, tilde", tilde, "090000000008 20", ""),
            ("null, tilde", tilde, "20", ""),
            (
                "raw text",
                Call::EmitRoundtrip,
                "0700000400 2104000200 00",
                "0x1F31",
            ),
            (
                "raw text, changed",
                Call::EmitRoundtrip,
                "0700000400 090000000001 2104000200 00",
                "0x1F31",
            ),
            ("literal nothing", Call::EmitRoundtrip, "2100000000 03", ""),
            (
                "literal line break",
                Call::EmitRoundtrip,
                "2100000100 03",
                "\n",
            ),
            ("literal line", Call::EmitRoundtrip, "2100000200 03", "a\n"),
            (
                "flow x,y",
                Call::EmitRoundtrip,
                "23010100 2100000300 00",
                "x,y",
            ),
            (
                "include",
                Call::EmitRoundtrip,
                "24000100 2100000400 00 0304000800 0c000600 01 01000000 20",
                "tone!includet.yaml",
            ),
            (
                "sequence at column 0",
                Call::EmitRoundtrip,
                &format!("{pair} 23000100 2101000100 00"),
                "s1",
            ),
            (
                "sequence at column 2",
                Call::EmitRoundtrip,
                &format!("{pair} 090000020000 23000100 2101000100 00"),
                "s1",
            ),
            (
                "alias key",
                Call::EmitRoundtrip,
                "24000100 2200000100 2101000100 00",
                "kv",
            ),
            (
                "step 16",
                step(16),
                &format!("{pair} 24000100 2101000100 00 2102000100 00"),
                "abc",
            ),
            ("step 17", step(17), "20", ""),
            (
                "width 65536",
                Call::EmitRoundtripDump(Settings {
                    width: 65_536,
                    ..PLAIN
                }),
                "20",
                "",
            ),
            ("a to 1", all, &format!("{pair} 2101000100 00"), "a1"),
        ];
        for (name, call, deck, pool) in samples {
            let deck = Deck {
                deck: unhex(deck),
                pool: pool.as_bytes().to_vec(),
            };
            self.exact(name, call, &deck);
            self.add(&format!("{name}, ample"), call, &deck, 100, 0);
        }
    }

    /// Refusals 3 to 8 by every call: the place, and that nothing is touched.
    fn refusals(&mut self) {
        let decks: [(&str, &str, &[u8]); 26] = [
            ("kind 00", "00", b""),
            ("kind 25", "20 25", b""),
            ("no body", "20 21", b""),
            ("a body cut short", "21000000 00", b""),
            ("style 5", "2100000000 05", b""),
            ("form 2", "20 23020000", b""),
            ("marks 128", "090000000080 20", b""),
            ("side 2", "0400000000 02 20", b""),
            ("presence 2", "0300000000 00000000 02 00000000 20", b""),
            ("tag after anchor", "0200000000 0100000000 20", b""),
            ("two raw texts", "0700000000 0700000000 20", b""),
            ("04 05 04", "040000000000 050000000000 040000000000 20", b""),
            ("past the pool", "20 2200000200", b"a"),
            ("nothing past the pool", "2202000000", b"a"),
            ("far past the pool", "22ffffffff", b"a"),
            ("not UTF-8", "2200000100", b"\xff"),
            ("overlong", "2200000200", b"\xc0\x80"),
            ("a surrogate", "2200000300", b"\xed\xa0\x80"),
            ("half a character", "2201000100", b"\xc3\xa9"),
            (
                "the target is not UTF-8",
                "0300000000 00000100 00 00000000 20",
                b"\xff",
            ),
            ("an item missing", "23000200 20", b""),
            ("a value missing", "24010100 20", b""),
            ("a node missing", "0600000000", b""),
            ("65,535 items missing", "2300ffff", b""),
            ("no document", "", b""),
            ("two documents", "20 20", b""),
        ];
        let settings = Settings {
            width: 20,
            indent: 4,
            ..PLAIN
        };
        let calls = [
            Call::EmitRoundtrip,
            Call::EmitRoundtripWith(NullStyle::Empty),
            Call::EmitRoundtripAllWith(NullStyle::Tilde),
            Call::EmitRoundtripDump(settings),
            Call::LocalModified,
            Call::CollectChangedIncludeChanges,
        ];
        for (at, (name, deck, pool)) in decks.into_iter().enumerate() {
            let deck = Deck {
                deck: unhex(deck),
                pool: pool.to_vec(),
            };
            // All documents, and two of the other calls in turn; every call on the last two.
            for (turn, call) in calls.into_iter().enumerate() {
                if turn == 2 || at >= 24 || turn == at % 6 || turn == (at + 3) % 6 {
                    self.add(name, call, &deck, 40, 2);
                }
            }
        }
    }

    /// Refusal 2: one more than each limit, and the limits themselves.
    fn sizes(&mut self) {
        let all = Call::EmitRoundtripAllWith(NullStyle::Null);
        let collect = Call::CollectChangedIncludeChanges;
        let null = Deck {
            deck: vec![0x20],
            pool: vec![],
        };
        let long = |deck: usize, pool: usize| Deck {
            deck: vec![0x20; deck],
            pool: vec![b'a'; pool],
        };
        self.add("a deck over its limit", all, &long(MOST_DECK + 1, 0), 40, 0);
        self.add("a pool over its limit", all, &long(1, MOST_POOL + 1), 40, 0);
        self.add("a pool at its limit", all, &long(1, MOST_POOL), 40, 0);
        self.add("an output over its limit", all, &null, MOST_OUTPUT + 1, 0);
        self.add("an output at its limit", all, &null, MOST_OUTPUT, 0);
        self.add("a list over its limit", collect, &null, 0, MOST_LIST + 1);
        self.add("a list at its limit", collect, &null, 0, MOST_LIST);
        let over = Settings {
            indent: 17,
            ..PLAIN
        };
        self.add(
            "1 before 2",
            Call::EmitRoundtripDump(over),
            &long(MOST_DECK + 1, 0),
            40,
            0,
        );
        self.add(
            "a deck over its limit, yes or no",
            Call::LocalModified,
            &long(MOST_DECK + 1, 0),
            0,
            0,
        );
    }

    /// Random ones, small: trees, corners, scalars that fold, recipes, damaged decks.
    fn random(&mut self) {
        let rng = &mut Rng::new(20_261_115);
        for number in 0..40 {
            let nodes = rng.between(2, 14);
            let tree = trees::document(rng, nodes, 12);
            let pooling = rng.one_of(&POOLINGS);
            let deck = build(&[tree], pooling, rng);
            let call = lending::every_call(rng)[number % 6];
            self.exact(&format!("tree {number}"), call, &deck);
        }
        for number in 0..40 {
            let mood = trees::corner(rng);
            let nodes = rng.between(2, 9);
            let deck = build(&[trees::grow(rng, &mood, nodes, 10)], Pooling::InOrder, rng);
            let call = Call::EmitRoundtripDump(lending::good_settings(rng));
            self.exact(&format!("corner {number}"), call, &deck);
        }
        for number in 0..24 {
            let text = texts::words(rng, 40);
            let deck = build(&[theorems::placed(rng, text)], Pooling::InOrder, rng);
            let width = rng.between(1, 30);
            let settings = Settings {
                width,
                ..lending::good_settings(rng)
            };
            self.exact(
                &format!("folded {number}"),
                Call::EmitRoundtripDump(settings),
                &deck,
            );
        }
        for number in 0..24 {
            let documents = recipes::recipe(rng, 12);
            let deck = build(&documents, Pooling::Shared, rng);
            let call = Call::EmitRoundtripAllWith(lending::null_style(rng));
            self.exact(&format!("recipe {number}"), call, &deck);
        }
        for number in 0..40 {
            let mut deck = build(&trees::documents(rng, 8, 8), Pooling::InOrder, rng);
            damage(rng, &mut deck.deck, &mut deck.pool);
            let call = lending::every_call(rng)[number % 6];
            self.add(&format!("damaged {number}"), call, &deck, 60, 3);
        }
    }

    /// Trees with changed includes: the list, and the yes or no.
    fn includes(&mut self) {
        let rng = &mut Rng::new(20_261_116);
        let mut found = 0;
        while found < 16 {
            let nodes = rng.between(3, 16);
            let documents = trees::documents(rng, nodes, 8);
            let deck = build(&documents, Pooling::InOrder, rng);
            let call = Call::CollectChangedIncludeChanges;
            let written = calls::unbounded(&call, &deck.deck, &deck.pool).unwrap_or_default();
            if written.changes.is_empty() || (found < 8 && written.changes.len() == 1) {
                continue;
            }
            self.exact(&format!("includes {found}"), call, &deck);
            let (room, list) = (written.bytes.len() + 5, written.changes.len() + 2);
            self.add(&format!("includes {found}, ample"), call, &deck, room, list);
            self.add(
                &format!("includes {found}"),
                Call::LocalModified,
                &deck,
                0,
                0,
            );
            found += 1;
        }
    }

    /// Decks at the limits, but for those that would write gigabytes.
    fn limits(&mut self) {
        let all = Call::EmitRoundtripAllWith(NullStyle::Null);
        let settings = Settings {
            width: 80,
            indent: 16,
            single_quotes: true,
            ..PLAIN
        };
        for extreme in extremes::all().into_iter().filter(|extreme| !extreme.huge) {
            self.exact(&extreme.name, all, &extreme.deck);
            if extreme.name.contains("include") {
                self.exact(
                    &extreme.name,
                    Call::CollectChangedIncludeChanges,
                    &extreme.deck,
                );
                self.exact(&extreme.name, Call::LocalModified, &extreme.deck);
            }
            if extreme.deck.deck.len() < 1000 {
                self.exact(
                    &format!("{}, settings", extreme.name),
                    Call::EmitRoundtripDump(settings),
                    &extreme.deck,
                );
            }
        }
    }
}

fn unhex(text: &str) -> Vec<u8> {
    let digits: Vec<char> = text.chars().filter(|digit| *digit != ' ').collect();
    let pairs = digits.chunks(2).map(|pair| pair.iter().collect::<String>());
    pairs
        .map(|pair| u8::from_str_radix(&pair, 16).expect("hexadecimal digits"))
        .collect()
}

/// The list in bytes.
pub fn encode(cases: &[Fixed]) -> Vec<u8> {
    let mut bytes = word(cases.len());
    for case in cases {
        encode_case(case, &mut bytes);
    }
    bytes
}

fn word(number: usize) -> Vec<u8> {
    let number = u32::try_from(number).unwrap_or(u32::MAX);
    number.to_le_bytes().to_vec()
}

fn encode_case(case: &Fixed, bytes: &mut Vec<u8>) {
    let came = calls::outcome(&case.call, &case.lent);
    let settings = match case.call {
        Call::EmitRoundtripDump(settings) => settings,
        Call::EmitRoundtripWith(null_style) | Call::EmitRoundtripAllWith(null_style) => Settings {
            null_style,
            ..PLAIN
        },
        _ => PLAIN,
    };
    let marks = [
        settings.indent_sequences,
        settings.explicit_end,
        settings.indentless,
        settings.single_quotes,
    ];
    let marks = marks
        .iter()
        .enumerate()
        .map(|(bit, set)| u8::from(*set) << bit)
        .sum();
    let style = crate::archive::null_number(settings.null_style) as u8;
    bytes.extend([number(&case.call), style, marks, 0]);
    let (deck, pool) = (runs(&case.lent.deck), runs(&case.lent.pool));
    let numbers = [
        settings.indent,
        settings.width,
        case.lent.output.len(),
        case.lent.list.len(),
        case.lent.deck.len(),
        deck.len(),
        case.lent.pool.len(),
        pool.len(),
        came.number,
        came.place,
        came.length,
        came.count,
        usize::from(came.yes),
    ];
    numbers
        .into_iter()
        .for_each(|number| bytes.extend(word(number)));
    bytes.extend(hash(&came.output).to_le_bytes());
    bytes.extend(hash(&list_bytes(&came.list)).to_le_bytes());
    bytes.extend(deck);
    bytes.extend(pool);
}

/// Each entry as three numbers of eight bytes.
pub fn list_bytes(list: &[Change]) -> Vec<u8> {
    let numbers = list.iter().flat_map(|change| {
        [
            u64::from(change.id),
            change.start as u64,
            change.length as u64,
        ]
    });
    numbers.flat_map(u64::to_le_bytes).collect()
}

/// FNV-1a of 64 bits.
pub fn hash(bytes: &[u8]) -> u64 {
    let start = 0xcbf2_9ce4_8422_2325;
    let turn = |hash: u64, byte: &u8| (hash ^ u64::from(*byte)).wrapping_mul(0x0100_0000_01b3);
    bytes.iter().fold(start, turn)
}

/// Bytes as runs: a piece's length, how often it stands there, and the piece.
fn runs(bytes: &[u8]) -> Vec<u8> {
    let mut made = Vec::new();
    let mut waiting = 0;
    let mut at = 0;
    while at < bytes.len() {
        let (period, times) = repeated(&bytes[at..]);
        if period * times < 16 + period || times < 3 {
            at += 1;
            continue;
        }
        run(&bytes[waiting..at], 1, &mut made);
        run(&bytes[at..at + period], times, &mut made);
        at += period * times;
        waiting = at;
    }
    run(&bytes[waiting..], 1, &mut made);
    made
}

fn run(piece: &[u8], times: usize, made: &mut Vec<u8>) {
    for part in piece.chunks(65_535) {
        made.extend((part.len() as u16).to_le_bytes());
        made.extend((times as u16).to_le_bytes());
        made.extend(part);
    }
}

/// The piece at the front that, repeated, goes furthest: its length, and how often it stands there.
fn repeated(bytes: &[u8]) -> (usize, usize) {
    let mut best = (1, 1);
    for period in 1..=LONGEST_PIECE.min(bytes.len()) {
        let same = bytes
            .iter()
            .zip(&bytes[period..])
            .take_while(|(a, b)| a == b)
            .count();
        let times = ((same + period) / period).min(65_535);
        if period * times > best.0 * best.1 {
            best = (period, times);
        }
    }
    best
}
