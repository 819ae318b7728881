//! What YAML readers make of the emitted bytes of recipes: `readers FOLDER DIFFERENCES SEED CASES [READER]`, with FOLDER src/readers and
//! DIFFERENCES docs/DIFFERENCES.md. For each reader the last lines say how many documents agree, and each kind of difference with its count
//! and its smallest example. The last line of all is `N differ, M unexplained`.

use oracle::calls::{Call, Settings};
use oracle::deck::{self, Pooling};
use oracle::encode::NullStyle;
use oracle::kinds;
use oracle::random::{lending, Rng};
use oracle::reading::{self, Reader};
use oracle::shrink::{smallest, Case};
use oracle::{archive, events, recipes, source};
use std::collections::BTreeMap;
use std::process::exit;

fn main() {
    let words: Vec<String> = std::env::args().skip(1).collect();
    if words.len() < 4 {
        fail("usage: readers FOLDER DIFFERENCES SEED CASES [READER]");
    }
    let (Ok(seed), Ok(cases)) = (words[2].parse(), words[3].parse()) else {
        fail("SEED and CASES are numbers.");
    };
    let page = std::fs::read_to_string(&words[1]).unwrap_or_else(|error| fail(&error.to_string()));
    if let Some(kind) = kinds::unnamed(&page) {
        fail(&format!(
            "docs/DIFFERENCES.md does not say: {}.",
            kind.words
        ));
    }
    let wanted = words.get(4).map_or("", String::as_str);
    let all = Call::EmitRoundtripAllWith(NullStyle::Null);
    let dump = Call::EmitRoundtripDump(Settings::default());
    for call in [all, dump] {
        println!(
            "The bytes of {} are {}.",
            archive::name(&call),
            source::name(&call)
        );
    }
    let mut all = Found::default();
    for name in reading::NAMES
        .into_iter()
        .filter(|name| name.contains(wanted))
    {
        let Some(mut reader) = reading::find(name, &words[0]) else {
            println!("{name} is not at hand.");
            continue;
        };
        let found = asked(&mut reader, seed, cases);
        found.show(name);
        all.differ += found.differ;
        all.unexplained += found.unexplained;
    }
    println!("{} differ, {} unexplained", all.differ, all.unexplained);
    exit(i32::from(all.unexplained > 0));
}

fn fail(why: &str) -> ! {
    eprintln!("{why}");
    exit(2)
}

/// What one reader made of all cases.
#[derive(Default)]
struct Found {
    cases: usize,
    documents: usize,
    agree: usize,
    differ: usize,
    unexplained: usize,
    /// By the words of the kind: how often, and the smallest example.
    kinds: BTreeMap<String, (usize, String)>,
}

fn asked(reader: &mut Reader, seed: u64, cases: u64) -> Found {
    let mut found = Found::default();
    for number in 0..cases {
        let case = drawn(&mut Rng::new(seed.wrapping_add(number)));
        found.cases += 1;
        found.documents += case.documents.len();
        if agrees(reader, &case) {
            found.agree += case.documents.len();
        } else {
            found.differ += 1;
            let small = smallest(case, |case| !agrees(reader, case));
            found.note(reader.name, &small);
        }
    }
    found
}

fn drawn(rng: &mut Rng) -> Case {
    let nodes = rng.between(1, 12);
    let documents = recipes::recipe(rng, nodes);
    let call = if documents.len() == 1 && rng.one_in(2) {
        Call::EmitRoundtripDump(lending::good_settings(rng))
    } else {
        Call::EmitRoundtripAllWith(lending::null_style(rng))
    };
    Case { documents, call }
}

fn bytes(case: &Case) -> Vec<u8> {
    let deck = deck::build(&case.documents, Pooling::InOrder, &mut Rng::new(0));
    source::written(&case.call, &deck)
}

fn agrees(reader: &mut Reader, case: &Case) -> bool {
    let seen = reader
        .read(&bytes(case))
        .unwrap_or_else(|error| fail(&format!("{}: {error}", reader.name)));
    seen == Some(events::of_documents(&case.documents))
}

impl Found {
    fn note(&mut self, reader: &str, small: &Case) {
        let bytes = bytes(small);
        let kind = kinds::of(reader, small, &bytes);
        self.unexplained += usize::from(kind.is_none());
        let words = kind.map_or("UNEXPLAINED", |kind| kind.words);
        let shown = example(small, &bytes);
        let entry = self.kinds.entry(words.to_owned());
        let (count, least) = entry.or_insert((0, shown.clone()));
        *count += 1;
        // The shortest line, so that the same cases give the same line.
        if (shown.len(), &shown) < (least.len(), least) {
            *least = shown;
        }
    }

    fn show(&self, name: &str) {
        println!(
            "{name}: {} of {} documents agree, in {} cases",
            self.agree, self.documents, self.cases
        );
        for (words, (count, example)) in &self.kinds {
            println!("  {count} {words}: {example}");
        }
    }
}

/// As docs/DIFFERENCES.md has it: the deck, the pool and what is written.
fn example(case: &Case, bytes: &[u8]) -> String {
    // The builder writes a layout record of zeros now and then; here none is wanted.
    let built = |seed| deck::build(&case.documents, Pooling::InOrder, &mut Rng::new(seed));
    let deck = (0..64).map(built).min_by_key(|deck| deck.deck.len());
    let deck = deck.expect("some decks");
    let call = match case.call {
        Call::EmitRoundtripAllWith(_) => String::new(),
        other => format!("{other:?} "),
    };
    let pool = if deck.pool.is_empty() {
        "-".to_owned()
    } else {
        hex(&deck.pool)
    };
    let written = String::from_utf8_lossy(bytes);
    format!("{call}{} ¦ {pool} ¦ {written:?}", hex(&deck.deck))
}

fn hex(bytes: &[u8]) -> String {
    bytes.iter().map(|byte| format!("{byte:02x}")).collect()
}
