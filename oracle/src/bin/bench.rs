//! The archive's speed beside the Rust's: `bench [SECONDS [WORD]]`, from one driver, on the same decks, or on those whose name has WORD. Each figure is the best of many runs, and the
//! runs of the two take turns. The ratios are the archive's time by the Rust's.

use oracle::archive::{self, Entry};
use oracle::calls::{self, Call, Settings, MOST_DECK, MOST_OUTPUT, MOST_POOL};
use oracle::deck::{build, Deck, Pooling};
use oracle::encode::NullStyle;
use oracle::example;
use oracle::extremes;
use oracle::included::{self, EachBelow};
use oracle::judge;
use oracle::random::Rng;
use oracle::recipes;
use oracle::roundtrip::ast::{IncludeSource, NodeStyle, YamlNode, YamlNodeKind};
use oracle::roundtrip::emit;
use oracle::scanner::ScalarStyle;
use std::hint::black_box;
use std::process::exit;
use std::time::{Duration, Instant};

const ALL: Call = Call::EmitRoundtripAllWith(NullStyle::Null);

fn main() {
    let words: Vec<String> = std::env::args().skip(1).collect();
    let seconds = match words.first().map(|word| word.parse::<f64>()) {
        None => 1.0,
        Some(Ok(seconds)) => seconds,
        Some(Err(_)) => fail("usage: bench [SECONDS [WORD]]"),
    };
    if !archive::has(&ALL) {
        fail("No archive is linked that has emit_roundtrip_all_with.");
    }
    println!(
        "{:46} {:>8} {:>9} | {:>10} {:>10} {:>10} {:>10} | {:>9} {:>9} {:>9}",
        "deck",
        "bytes",
        "written",
        "archive",
        "judging",
        "Rust emits",
        "and builds",
        "(a) emit",
        "unjudged",
        "(b) whole"
    );
    let wanted = words.get(1).map_or("", String::as_str);
    for subject in subjects()
        .iter()
        .filter(|subject| subject.name.contains(wanted))
    {
        measure(subject, Duration::from_secs_f64(seconds));
    }
    println!("times in microseconds; (a) the archive's call by the Rust's emission of a tree that is built already; unjudged: the call less its");
    println!("judging by that emission, so that neither side judges a deck; (b) the call by the Rust's building of the tree and emission");
}

fn fail(why: &str) -> ! {
    eprintln!("{why}");
    exit(2)
}

struct Subject {
    name: String,
    call: Call,
    deck: Deck,
}

fn subject(name: &str, call: Call, deck: Deck) -> Subject {
    assert!(
        deck.deck.len() <= MOST_DECK && deck.pool.len() <= MOST_POOL,
        "{name} is too large"
    );
    Subject {
        name: name.to_owned(),
        call,
        deck,
    }
}

/// Small, typical, large and bad ones.
fn subjects() -> Vec<Subject> {
    let folded = Call::EmitRoundtripDump(Settings {
        width: 80,
        ..Settings::default()
    });
    let one = recipe(1, 3);
    let mut found = vec![
        subject(
            "one null",
            ALL,
            Deck {
                deck: vec![0x20],
                pool: vec![],
            },
        ),
        subject("small: a recipe of a few nodes", ALL, one.clone()),
        subject("small: the screen of examples", ALL, example::deck()),
        subject("typical: a recipe of 300 nodes", ALL, recipe(7, 300)),
        subject("typical, folded at 80", folded, recipe(7, 300)),
        subject("typical, with comments and tags", ALL, recipe(17, 300)),
        subject("large: a recipe that fills its deck", ALL, largest_recipe()),
        subject("large, folded at 80", folded, largest_recipe()),
    ];
    let wanted = [
        "65,536 documents",
        "65,532 items",
        "32,766 pairs",
        "Sequences depth 64 flow false",
        "MappingsByValue depth 64 flow true",
        "65535 bytes of letters, style 0",
        "65535 bytes of words, style 2",
        "65535 bytes of controls, style 2",
        "65535 bytes of apostrophes, style 1",
        "65535 bytes of lines, style 3",
        "1,048,576 bytes",
        "a head comment many times",
        "13,107 aliases of one text: a bad byte named",
        "13,107 aliases of one text: good",
        "13,107 aliases of one text: a bad byte unnamed",
    ];
    let mut limits = extremes::all();
    for name in wanted {
        let Some(at) = limits.iter().position(|extreme| extreme.name == name) else {
            fail(&format!("No deck is called {name}."));
        };
        found.push(subject(name, ALL, limits.swap_remove(at).deck));
    }
    let words = limits
        .iter()
        .find(|extreme| extreme.name == "65535 bytes of words, style 3");
    let mut words = words.expect("a deck of words").deck.clone();
    words.deck[5] = 2;
    found.push(subject("65535 bytes of words, folded at 80", folded, words));
    found.push(subject(
        "13,106 short texts in one long pool",
        ALL,
        short_texts(),
    ));
    found.extend(about_changes());
    found.retain(|subject| archive::has(&subject.call));
    found
}

/// The two calls about changes: a typical recipe, and as many includes as fit, side by side and in one another.
fn about_changes() -> Vec<Subject> {
    const COLLECT: Call = Call::CollectChangedIncludeChanges;
    let mut found = vec![
        subject(
            "local_modified: a recipe with two includes",
            Call::LocalModified,
            two_includes(),
        ),
        subject(
            "local_modified: a recipe that fills its deck",
            Call::LocalModified,
            largest_recipe(),
        ),
        subject(
            "collect: a recipe with two includes",
            COLLECT,
            two_includes(),
        ),
    ];
    let wanted = [
        (
            "64 nested",
            "64 includes, each the item of another, block, all changed",
        ),
        (
            "64 nested as keys",
            "64 includes, each the key of another, block, all changed",
        ),
        (
            "3,120 side by side",
            "3,120 changed includes, each with an id of its own",
        ),
        (
            "3,443, most of them keys",
            "3,443 changed includes, most of them keys",
        ),
        ("4,369, none changed", "4,369 includes, none changed"),
        (
            "16 files of 64 KiB",
            "16 changed files of 65,536 bytes each",
        ),
    ];
    let mut limits = included::limits();
    for (short, name) in wanted {
        let Some(at) = limits.iter().position(|extreme| extreme.name == name) else {
            fail(&format!("No deck is called {name}."));
        };
        let deck = limits.swap_remove(at).deck;
        found.push(subject(&format!("collect: {short}"), COLLECT, deck));
    }
    found
}

/// A recipe of about 300 nodes, two thirds of them in two included files, of which one has a changed value.
fn two_includes() -> Deck {
    let rng = &mut Rng::new(5);
    let mut parts: Vec<YamlNode> = Vec::new();
    while parts.len() < 3 {
        let mut part = recipes::recipe(rng, 100).swap_remove(0);
        let block = part.style == NodeStyle::Block && part.source.is_none();
        if block && count(&part) >= 70 {
            (part.explicit_start, part.leading_bom) = (false, false);
            part.directives.clear();
            part.each_below(&mut |node| {
                node.comments.modified = false;
                node.source = None;
            });
            parts.push(part);
        }
    }
    for (part, id) in parts[1..].iter_mut().zip(1..) {
        part.source = Some(IncludeSource {
            tag: "!include".to_owned(),
            target: format!("engines/{id}.yaml"),
            target_file_id: Some(id),
        });
    }
    mark_last(&mut parts[2]);
    let names = ["screen", "fast", "fine"].map(|name| {
        let kind = YamlNodeKind::Scalar(name.to_owned(), ScalarStyle::Plain);
        YamlNode::new(kind, Default::default())
    });
    let kind = YamlNodeKind::Mapping(names.into_iter().zip(parts).collect());
    let root = YamlNode::new(kind, Default::default());
    build(&[root], Pooling::InOrder, rng)
}

/// The changed mark on the last node.
fn mark_last(part: &mut YamlNode) {
    let mut left = count(part);
    part.each_below(&mut |node| {
        left -= 1;
        node.comments.modified = left == 0;
    });
}

/// A recipe of one document.
fn recipe(seed: u64, nodes: usize) -> Deck {
    let rng = &mut Rng::new(seed);
    loop {
        let documents = recipes::recipe(rng, nodes);
        if documents.len() == 1 && count(&documents[0]) * 3 >= nodes * 2 {
            return build(&documents, Pooling::InOrder, rng);
        }
    }
}

fn count(node: &YamlNode) -> usize {
    1 + match &node.kind {
        YamlNodeKind::Sequence(items) => items.iter().map(count).sum(),
        YamlNodeKind::Mapping(pairs) => pairs.iter().map(|(k, v)| count(k) + count(v)).sum(),
        _ => 0,
    }
}

/// Recipes as the items of one sequence, as many as fit.
fn largest_recipe() -> Deck {
    let rng = &mut Rng::new(11);
    let mut items: Vec<YamlNode> = Vec::new();
    let mut made = Deck::default();
    loop {
        let mut next = recipes::recipe(rng, 40).swap_remove(0);
        (next.explicit_start, next.leading_bom) = (false, false);
        next.directives.clear();
        items.push(next);
        let root = YamlNode::new(YamlNodeKind::Sequence(items.clone()), Default::default());
        let root = root.with_style(NodeStyle::Block);
        let larger = build(&[root], Pooling::Shared, &mut Rng::new(0));
        if larger.deck.len() > MOST_DECK || larger.pool.len() > MOST_POOL {
            return made;
        }
        made = larger;
    }
}

/// Aliases of one byte each, from everywhere in a pool of 64 KiB.
fn short_texts() -> Deck {
    let mut deck = Vec::new();
    for number in 0..13_106u16 {
        deck.push(0x22);
        deck.extend((number * 5).to_le_bytes());
        deck.extend([1, 0]);
    }
    Deck {
        deck,
        pool: vec![b'a'; MOST_POOL],
    }
}

/// The best of many runs of each way, taking turns.
fn measure(subject: &Subject, time: Duration) {
    let Subject { name, call, deck } = subject;
    let built = judge::read(&deck.deck, &deck.pool);
    let written = calls::unbounded(call, &deck.deck, &deck.pool).unwrap_or_default();
    let mut list = vec![Entry::default(); written.changes.len()];
    let written = written.bytes.len();
    // What is written may be gigabytes: then the call is refused for want of room, and one turn is enough.
    let huge = written > 100 * MOST_OUTPUT;
    let mut output = vec![0u8; written.min(MOST_OUTPUT)];
    // One document more than a one-document call takes: it judges and refuses. A deck that is full has a byte less instead: it is judged to its end.
    let mut judged = deck.deck.clone();
    if judged.len() < MOST_DECK {
        judged.push(0x20);
    } else {
        judged.pop();
    }
    let judges = archive::has(&Call::EmitRoundtrip) && built.is_ok();
    let mut best = [f64::INFINITY; 4];
    let begun = Instant::now();
    let mut turns = 0;
    while turns < if huge { 1 } else { 3 } || begun.elapsed() < time {
        let inner = if written < 20_000 && deck.deck.len() < 2_000 {
            50
        } else {
            1
        };
        best[0] = best[0].min(timed(inner, || {
            let answer = archive::answer(call, &deck.deck, &deck.pool, &mut output, &mut list);
            black_box((answer.length, answer.modified));
        }));
        if judges {
            best[1] = best[1].min(timed(inner, || {
                let call = &Call::EmitRoundtrip;
                let answer = archive::answer(call, &judged, &deck.pool, &mut [], &mut []);
                assert!(matches!(black_box(answer.number), 7 | 8), "{name}");
            }));
        }
        if let Ok(documents) = &built {
            best[2] = best[2].min(timed(inner, || {
                black_box(rust_emits(call, documents));
            }));
        }
        best[3] = best[3].min(timed(inner, || {
            let built = judge::read(&deck.deck, &deck.pool);
            black_box(built.map_or(0, |documents| rust_emits(call, &documents)));
        }));
        turns += 1;
    }
    line(name, deck, written, &best);
}

/// The Rust's own function on trees that are built; of what it gives a number is kept.
fn rust_emits(call: &Call, documents: &[YamlNode]) -> usize {
    match call {
        Call::CollectChangedIncludeChanges => {
            emit::collect_changed_include_changes(black_box(documents)).len()
        }
        Call::LocalModified => usize::from(emit::local_modified(black_box(&documents[0]))),
        _ => calls::written(call, documents).bytes.len(),
    }
}

/// Microseconds for one run.
fn timed(times: u32, mut run: impl FnMut()) -> f64 {
    let begun = Instant::now();
    for _ in 0..times {
        run();
    }
    begun.elapsed().as_secs_f64() * 1e6 / f64::from(times)
}

fn line(name: &str, deck: &Deck, written: usize, best: &[f64; 4]) {
    let [whole, judging, emits, builds] = *best;
    let time = |value: f64| {
        if value.is_finite() {
            format!("{value:.2}")
        } else {
            "-".to_owned()
        }
    };
    let ratio = |a: f64, b: f64| {
        if a.is_finite() && b.is_finite() {
            format!("{:.2}", a / b)
        } else {
            "-".to_owned()
        }
    };
    println!(
        "{name:46} {:>8} {written:>9} | {:>10} {:>10} {:>10} {:>10} | {:>9} {:>9} {:>9}",
        deck.deck.len() + deck.pool.len(),
        time(whole),
        time(judging),
        time(emits),
        time(builds),
        ratio(whole, emits),
        ratio(whole - judging, emits),
        ratio(whole, builds)
    );
}
