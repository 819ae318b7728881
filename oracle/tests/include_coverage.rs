//! The decks with includes really hold what they are meant to hold: includes and changed marks at every place, rooms of every sort for files and
//! entries, and as many includes as fit. Each is counted over many cases and must be met.

use oracle::calls::{self, Call, MOST_DECK, MOST_LIST, MOST_OUTPUT};
use oracle::deck::Deck;
use oracle::included;
use oracle::judge;
use oracle::random::{lending, Rng};
use oracle::roundtrip::ast::{NodeStyle, YamlNode, YamlNodeKind};
use std::collections::{BTreeMap, BTreeSet};

type Counts = BTreeMap<String, usize>;

const COLLECT: Call = Call::CollectChangedIncludeChanges;

fn note(counts: &mut Counts, what: impl Into<String>) {
    *counts.entry(what.into()).or_default() += 1;
}

/// The ways by which a node is reached.
#[derive(Clone, Copy, Default)]
struct Way {
    place: &'static str,
    flow: bool,
    under_key: bool,
    include: bool,
    included_key: bool,
    included_value: bool,
}

/// Counts includes and changed marks below an include by their places; gathers the ids.
fn look(node: &YamlNode, way: Way, counts: &mut Counts, ids: &mut Vec<u32>) {
    let form = if way.flow { " in flow" } else { "" };
    if let Some(source) = &node.source {
        let id = match source.target_file_id {
            Some(id) => {
                ids.push(id);
                "with an id"
            }
            None => "without an id",
        };
        note(counts, format!("include: {}{form}, {id}", way.place));
        if way.include {
            note(
                counts,
                format!("include in an include: {}{form}", way.place),
            );
        }
        if way.under_key {
            note(counts, "include below a key");
        }
    }
    if node.comments.modified {
        let whose = match (&node.source, way.include) {
            (Some(_), _) => "an include",
            (None, true) => "below an include",
            (None, false) => "the document's own",
        };
        note(counts, format!("mark: {whose}, {}{form}", way.place));
        if way.included_key {
            note(counts, "mark: below an included key");
        }
        if way.included_value {
            note(
                counts,
                "mark: below an included value or item in an include",
            );
        }
    }
    let here = node.source.is_some();
    let below = |place: &'static str| Way {
        place,
        flow: way.flow || node.style == NodeStyle::Flow,
        under_key: way.under_key || place == "key",
        include: way.include || here,
        included_key: way.included_key || (here && way.place == "key"),
        included_value: way.included_value || (here && way.include && way.place != "key"),
    };
    match &node.kind {
        YamlNodeKind::Sequence(items) => {
            for item in items {
                look(item, below("item"), counts, ids);
            }
        }
        YamlNodeKind::Mapping(pairs) => {
            for (key, value) in pairs {
                look(key, below("key"), counts, ids);
                look(value, below("value"), counts, ids);
            }
        }
        _ => {}
    }
}

fn wanted() -> Vec<String> {
    let mut wanted = Vec::new();
    for place in [
        "root",
        "item",
        "key",
        "value",
        "item in flow",
        "key in flow",
        "value in flow",
    ] {
        for id in ["with an id", "without an id"] {
            wanted.push(format!("include: {place}, {id}"));
        }
        wanted.push(format!("mark: an include, {place}"));
        wanted.push(format!("mark: the document's own, {place}"));
        if place != "root" {
            wanted.push(format!("include in an include: {place}"));
            wanted.push(format!("mark: below an include, {place}"));
        }
    }
    let more = [
        "include below a key",
        "mark: below an included key",
        "mark: below an included value or item in an include",
        "one id twice",
        "one id twice in the list",
        "several documents",
    ];
    wanted.extend(more.map(String::from));
    wanted
}

#[test]
fn includes_and_marks_at_every_place() {
    let mut counts = Counts::new();
    for seed in 0..8_000 {
        let deck = included::deck(&mut Rng::new(seed));
        let documents = judge::read(&deck.deck, &deck.pool).expect("a good deck");
        let mut ids = Vec::new();
        let root = Way {
            place: "root",
            ..Way::default()
        };
        for document in &documents {
            look(document, root, &mut counts, &mut ids);
        }
        if repeats(&ids) {
            note(&mut counts, "one id twice");
        }
        if documents.len() > 1 {
            note(&mut counts, "several documents");
        }
        let changes = calls::written(&COLLECT, &documents).changes;
        if repeats(&changes.iter().map(|change| change.id).collect::<Vec<_>>()) {
            note(&mut counts, "one id twice in the list");
        }
    }
    for what in wanted() {
        let times = counts.remove(&what).unwrap_or(0);
        assert!(times >= 100, "too rare: {what}, {times} times");
    }
    assert!(counts.is_empty(), "not expected: {counts:?}");
}

fn repeats(ids: &[u32]) -> bool {
    ids.iter().collect::<BTreeSet<_>>().len() < ids.len()
}

/// A room beside what must go into it.
fn room(lent: usize, finished: usize) -> &'static str {
    match (lent, finished) {
        (lent, finished) if lent == finished => "exact",
        (0, _) => "none",
        (lent, finished) if lent + 1 == finished => "one short",
        (lent, finished) if lent < finished => "short",
        _ => "ample",
    }
}

#[test]
fn rooms_of_every_sort() {
    let mut counts = Counts::new();
    for seed in 0..20_000 {
        let rng = &mut Rng::new(seed);
        let deck = included::deck(rng);
        let lent = lending::lent(rng, &COLLECT, &deck);
        let written = calls::unbounded(&COLLECT, &deck.deck, &deck.pool).expect("a good deck");
        if written.changes.len() < 2 {
            continue;
        }
        let list = room(lent.list.len(), written.changes.len());
        let output = room(lent.output.len(), written.bytes.len());
        note(&mut counts, format!("list {list}, output {output}"));
        let number = calls::outcome(&COLLECT, &lent).number;
        let short = |room: &str| matches!(room, "none" | "one short" | "short");
        let right = match (short(list), short(output)) {
            (true, _) => 9,
            (false, true) => 10,
            _ => 0,
        };
        assert_eq!(number, right, "seed {seed}");
    }
    for list in ["exact", "one short", "none", "ample"] {
        for output in ["exact", "one short", "none", "ample"] {
            let what = format!("list {list}, output {output}");
            let times = counts.get(&what).copied().unwrap_or(0);
            assert!(times >= 20, "too rare: {what}, {times} times");
        }
    }
}

/// The call's answer on a deck at the limits with the largest rooms: number and count.
fn at_most(name: &str) -> (usize, usize) {
    let found = included::limits().into_iter().find(|one| one.name == name);
    let deck = found
        .unwrap_or_else(|| panic!("no deck is called {name}"))
        .deck;
    assert!(deck.deck.len() <= MOST_DECK);
    let lent = lending::lent_of(&mut Rng::new(1), &deck, MOST_OUTPUT, MOST_LIST);
    let outcome = calls::outcome(&COLLECT, &lent);
    (outcome.number, outcome.count)
}

#[test]
fn the_limits_are_reached() {
    let answers = [
        ("3,443 changed includes, most of them keys", (0, 3_443)),
        ("3,120 documents, each a changed include", (0, 3_120)),
        (
            "3,120 changed includes, each with an id of its own",
            (0, 3_120),
        ),
        ("4,369 includes, none changed", (0, 0)),
        ("4,368 includes in a changed document", (0, 0)),
        (
            "64 includes, each the item of another, block, all changed",
            (0, 64),
        ),
        (
            "64 includes, each the value of another, block, all changed",
            (0, 64),
        ),
        (
            "64 includes, each the key of another, block, all changed",
            (0, 64),
        ),
        (
            "64 includes, each the item of another, block, the deepest changed",
            (0, 1),
        ),
        (
            "64 includes, each the value of another, flow, the deepest changed",
            (0, 1),
        ),
        (
            "64 includes, each the key of another, flow, the deepest changed",
            (0, 64),
        ),
        ("64 includes without an id, each the key of another", (0, 0)),
        ("65 includes, each the value of another", (6, 0)),
        ("16 changed files of 65,536 bytes each", (0, 16)),
        ("5 changed bytes more", (10, 0)),
        ("100 changed files of one long text", (10, 0)),
        ("a long text in 64 files", (10, 0)),
    ];
    for (name, answer) in answers {
        assert_eq!(at_most(name), answer, "{name}");
    }
}

/// A changed include takes 19 bytes or more: an include record, a mapping record and a null, where a key's mark is enough. None of the trees has
/// more of them than that allows, and a deck has never more than the largest list has entries.
#[test]
fn the_largest_list_is_never_too_short() {
    assert_eq!(MOST_DECK / 19, 3_449);
    assert!(MOST_DECK / 19 < MOST_LIST);
    for seed in 0..20_000 {
        takes_19_bytes_each(&included::deck(&mut Rng::new(seed)));
    }
    for extreme in included::limits() {
        takes_19_bytes_each(&extreme.deck);
    }
}

fn takes_19_bytes_each(deck: &Deck) {
    let written = calls::unbounded(&COLLECT, &deck.deck, &deck.pool).unwrap_or_default();
    assert!(19 * written.changes.len() <= deck.deck.len());
}

/// A list of one entry more than the limit is refused with 2, also where it would not be needed.
#[test]
fn a_list_over_its_limit() {
    for extreme in included::limits() {
        let lent = lending::lent_of(&mut Rng::new(1), &extreme.deck, 10, MOST_LIST + 1);
        let outcome = calls::outcome(&COLLECT, &lent);
        assert_eq!((outcome.number, outcome.place), (2, 0), "{}", extreme.name);
        assert_eq!((outcome.output, outcome.list), (lent.output, lent.list));
    }
}
