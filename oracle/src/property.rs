//! Demand 3 on pairs of trees: an include reached only through block collections and never through a key, and the same with something changed in
//! what it brought in. Who answers is handed in, so that the archive, the Rust or a faulty one can be asked. What must be handed back is computed
//! here from the tree, from each changed mark upwards; nothing of it comes from the Rust.

use crate::archive;
use crate::calls::{self, Call, Lent, Settings, MOST_LIST, MOST_OUTPUT};
use crate::deck::{build, Deck, POOLINGS};
use crate::included::{self, EachBelow};
use crate::random::{lending, texts, trees, Rng};
use crate::roundtrip::ast::{NodeStyle, YamlNode, YamlNodeKind};
use crate::scanner::Span;

/// What a call said: its number and, where it answered, the yes or no, the bytes and the files.
#[derive(Debug, Clone, PartialEq, Eq, Default)]
pub struct Said {
    pub number: usize,
    pub yes: bool,
    pub bytes: Vec<u8>,
    pub files: Vec<(u32, Vec<u8>)>,
}

/// Who is asked. None: the call is not there.
pub type Ask<'a> = &'a dyn Fn(&Call, &Deck) -> Option<Said>;

/// Asks with a small room first, and with the largest where that is too small.
fn with_room(call: &Call, deck: &Deck, outcome: impl Fn(&Call, &Lent) -> calls::Outcome) -> Said {
    let mut rooms = [(2_048, 32), (MOST_OUTPUT, MOST_LIST)].into_iter();
    loop {
        let (output, list) = rooms.next().expect("a room for every deck");
        let lent = Lent {
            deck: deck.deck.clone(),
            pool: deck.pool.clone(),
            output: vec![0xaa; if call.is_lent_output() { output } else { 0 }],
            list: vec![Default::default(); if call.is_lent_list() { list } else { 0 }],
        };
        let came = outcome(call, &lent);
        if came.number < 9 || output == MOST_OUTPUT {
            return said(&came);
        }
    }
}

/// Files that do not lie one after another, from the front to the length, are none at all: nobody expects a file of id 0xbad with no bytes.
fn said(came: &calls::Outcome) -> Said {
    let mut files = Vec::new();
    let mut end = 0;
    for change in came.list.iter().take(came.count) {
        let file = came.output.get(change.start..change.start + change.length);
        match file {
            Some(file) if change.start == end => files.push((change.id, file.to_vec())),
            _ => files.push((0xbad, Vec::new())),
        }
        end = change.start + change.length;
    }
    if came.count > 0 && end != came.length {
        files.push((0xbad, Vec::new()));
    }
    Said {
        number: came.number,
        yes: came.yes,
        bytes: came.output[..came.length.min(came.output.len())].to_vec(),
        files,
    }
}

pub fn ask_the_archive(call: &Call, deck: &Deck) -> Option<Said> {
    archive::has(call).then(|| with_room(call, deck, archive::outcome))
}

pub fn ask_the_rust(call: &Call, deck: &Deck) -> Option<Said> {
    Some(with_room(call, deck, calls::outcome))
}

/// A node by its place in the tree, in the order of the deck.
struct Place {
    parent: Option<usize>,
    key: bool,
    flow: bool,
    /// The file id of an include, where it has one.
    include: Option<Option<u32>>,
    changed: bool,
}

/// The nodes of some documents, each document's after the one before.
fn places(documents: &[YamlNode]) -> Vec<Place> {
    let mut found = Vec::new();
    for document in documents {
        add_places(document, None, false, &mut found);
    }
    found
}

fn add_places(node: &YamlNode, parent: Option<usize>, key: bool, found: &mut Vec<Place>) {
    let here = found.len();
    found.push(Place {
        parent,
        key,
        flow: node.style == NodeStyle::Flow,
        include: node.source.as_ref().map(|source| source.target_file_id),
        changed: node.comments.modified,
    });
    match &node.kind {
        YamlNodeKind::Sequence(items) => {
            for item in items {
                add_places(item, Some(here), false, found);
            }
        }
        YamlNodeKind::Mapping(pairs) => {
            for (key, value) in pairs {
                add_places(key, Some(here), true, found);
                add_places(value, Some(here), false, found);
            }
        }
        _ => {}
    }
}

/// For each node whether a changed mark lies on it, or below it on a path that enters an include only as a key. Each mark is carried upwards, until
/// it would leave an include that is no key.
fn reached(places: &[Place]) -> Vec<bool> {
    let mut reached = vec![false; places.len()];
    for marked in (0..places.len()).filter(|&at| places[at].changed) {
        let mut next = Some(marked);
        while let Some(at) = next {
            reached[at] = true;
            let stays = places[at].include.is_some() && !places[at].key;
            next = places[at].parent.filter(|_| !stays);
        }
    }
    reached
}

/// The places of the includes that must be handed back, in order, with their ids.
fn handed_back(places: &[Place]) -> Vec<(usize, u32)> {
    let reached = reached(places);
    let id = |at: usize| places[at].include.flatten().filter(|_| reached[at]);
    (0..places.len())
        .filter_map(|at| id(at).map(|id| (at, id)))
        .collect()
}

/// The nodes above a place, the nearest first.
fn above(places: &[Place], at: usize) -> Vec<usize> {
    let mut found = Vec::new();
    let mut next = places[at].parent;
    while let Some(at) = next {
        found.push(at);
        next = places[at].parent;
    }
    found
}

/// Whether a place is an include reached only through block collections and never through a key.
fn is_block_include(places: &[Place], at: usize) -> bool {
    let above = above(places, at);
    let key = places[at].key || above.iter().any(|&up| places[up].key);
    let flow = above.iter().any(|&up| places[up].flow);
    places[at].include.is_some() && !key && !flow
}

/// The documents before and after, the include's place, its document's number, and the settings of both runs.
pub struct Pair {
    pub before: Vec<YamlNode>,
    pub after: Vec<YamlNode>,
    pub at: usize,
    pub document: usize,
    pub settings: Settings,
    /// What was changed, in words.
    pub what: &'static str,
}

/// A random pair.
pub fn pair(rng: &mut Rng) -> Pair {
    loop {
        let mood = mood(rng);
        let before = documents(rng, &mood);
        let all = places(&before);
        let found: Vec<usize> = (0..all.len())
            .filter(|&at| is_block_include(&all, at))
            .collect();
        if found.is_empty() {
            continue;
        }
        // Of two draws the later one, which tends to lie deeper.
        let at = found[rng.below(found.len()).max(rng.below(found.len()))];
        let mut after = before.clone();
        let what = change(rng, &mood, node_at(&mut after, at));
        return Pair {
            document: (0..at).filter(|&up| all[up + 1].parent.is_none()).count(),
            before,
            after,
            at,
            settings: lending::good_settings(rng),
            what,
        };
    }
}

fn mood(rng: &mut Rng) -> trees::Mood {
    let mut mood = included::mood(rng);
    mood.flow = rng.one_of(&[0, 0, 10, 30]);
    mood
}

fn documents(rng: &mut Rng, mood: &trees::Mood) -> Vec<YamlNode> {
    let count = rng.one_of(&[1, 1, 1, 2, 3]);
    let mut documents: Vec<YamlNode> = (0..count)
        .map(|_| {
            let (nodes, longest) = (rng.between(1, 16), rng.one_of(&[2, 8, 12]));
            let grown = trees::grow(rng, mood, nodes, longest);
            deeper(rng, grown)
        })
        .collect();
    few_marks(rng, &mut documents);
    if rng.one_in(2) {
        own_ids(&mut documents);
    }
    documents
}

/// Now and then a tree lies deep in others.
fn deeper(rng: &mut Rng, mut root: YamlNode) -> YamlNode {
    if !rng.one_in(40) {
        return root;
    }
    for _ in 0..rng.between(1, 40) {
        let kind = if rng.one_in(2) {
            YamlNodeKind::Sequence(vec![root])
        } else {
            let key = YamlNode::new(YamlNodeKind::Null, Span::default());
            YamlNodeKind::Mapping(vec![(key, root)])
        };
        root = YamlNode::new(kind, Span::default());
    }
    root
}

/// In most cases none, one or two of the changed marks are left, so that each of them decides something.
fn few_marks(rng: &mut Rng, documents: &mut [YamlNode]) {
    if rng.chance(35) {
        return;
    }
    let nodes = places(documents).len();
    let kept: Vec<usize> = (0..rng.below(3)).map(|_| rng.below(nodes)).collect();
    let mut number = 0;
    for document in documents {
        document.each_below(&mut |node| {
            node.comments.modified = kept.contains(&number);
            number += 1;
        });
    }
}

/// Each include gets an id of its own, so that an id names a place.
fn own_ids(documents: &mut [YamlNode]) {
    let mut number = 0;
    for document in documents {
        document.each_below(&mut |node| {
            number += 1;
            let id = node
                .source
                .as_mut()
                .map(|source| &mut source.target_file_id);
            if let Some(Some(id)) = id {
                *id = number;
            }
        });
    }
}

/// The node at a place in the order of the deck.
fn node_at(documents: &mut [YamlNode], at: usize) -> &mut YamlNode {
    let mut left = at;
    for document in documents {
        let size = places(std::slice::from_ref(document)).len();
        if left < size {
            return below(document, left);
        }
        left -= size;
    }
    unreachable!("a place of these documents")
}

fn below(node: &mut YamlNode, mut left: usize) -> &mut YamlNode {
    if left == 0 {
        return node;
    }
    left -= 1;
    let children: Vec<&mut YamlNode> = match &mut node.kind {
        YamlNodeKind::Sequence(items) => items.iter_mut().collect(),
        YamlNodeKind::Mapping(pairs) => pairs.iter_mut().flat_map(|(k, v)| [k, v]).collect(),
        _ => Vec::new(),
    };
    for child in children {
        let size = places(std::slice::from_ref(child)).len();
        if left < size {
            return below(child, left);
        }
        left -= size;
    }
    unreachable!("a place below this node")
}

/// Changes something that an include brought in: its node record with all below it, its tag, anchor and raw text, its changed mark. Its directive,
/// comments, layout and document marks stay.
fn change(rng: &mut Rng, mood: &trees::Mood, node: &mut YamlNode) -> &'static str {
    match rng.below(7) {
        0 => {
            node.comments.modified = !node.comments.modified;
            "its mark"
        }
        1 => {
            properties(rng, node);
            "its tag, anchor and raw text"
        }
        2 | 3 => {
            let size = places(std::slice::from_ref(node)).len();
            let inner = below(node, rng.below(size));
            inner.comments.modified = !inner.comments.modified;
            "a mark on it or below it"
        }
        4 => {
            contents(rng, mood, node);
            "what is below it"
        }
        5 => {
            let (set, keep) = (rng.one_in(2), node.comments.modified);
            node.each_below(&mut |inner| inner.comments.modified = set);
            node.comments.modified = keep;
            "all marks below it"
        }
        _ => {
            contents(rng, mood, node);
            properties(rng, node);
            node.comments.modified = rng.one_in(2);
            "all that it brought in"
        }
    }
}

fn contents(rng: &mut Rng, mood: &trees::Mood, node: &mut YamlNode) {
    let nodes = rng.between(1, 8);
    let other = trees::grow(rng, mood, nodes, 8);
    node.kind = other.kind;
    node.style = other.style;
}

fn properties(rng: &mut Rng, node: &mut YamlNode) {
    let mut text = || rng.one_in(2).then(|| texts::raw(rng, 8));
    node.tag = text();
    node.anchor = text();
    node.comments.raw = text();
}

/// What the pair showed beside that nothing differs.
#[derive(Debug, Clone, Copy, PartialEq, Eq, Default)]
pub struct Seen {
    pub root: bool,
    pub around: usize,
    /// Files around it that are handed back, in both.
    pub back: usize,
    pub own_back: [bool; 2],
    pub yes: bool,
}

/// Tries a pair. What differs is told in words.
pub fn check(rng: &mut Rng, pair: &Pair, ask: Ask) -> Result<Seen, String> {
    let all = [&pair.before, &pair.after].map(|documents| pooled(rng, documents));
    let one = [&pair.before, &pair.after].map(|documents| {
        let document = std::slice::from_ref(&documents[pair.document]);
        pooled(rng, document)
    });
    let mut seen = Seen::default();
    let before = places(&pair.before);
    seen.root = before[pair.at].parent.is_none();
    same_bytes(pair, &all, &one, ask)?;
    documents_back(pair, &one, ask, &mut seen)?;
    files_back(pair, &all, ask, &mut seen)?;
    Ok(seen)
}

fn pooled(rng: &mut Rng, documents: &[YamlNode]) -> Deck {
    let pooling = rng.one_of(&POOLINGS);
    build(documents, pooling, rng)
}

/// Both decks through one call, where it is there. Both are well formed and small, so it must answer.
fn both(call: &Call, decks: &[Deck; 2], ask: Ask) -> Result<Option<[Said; 2]>, String> {
    let (Some(before), Some(after)) = (ask(call, &decks[0]), ask(call, &decks[1])) else {
        return Ok(None);
    };
    match [before.number, after.number] {
        [0, 0] => Ok(Some([before, after])),
        numbers => Err(format!("{} refused: {numbers:?}", archive::name(call))),
    }
}

/// The document's bytes stay.
fn same_bytes(pair: &Pair, all: &[Deck; 2], one: &[Deck; 2], ask: Ask) -> Result<(), String> {
    let style = pair.settings.null_style;
    let calls = [
        (Call::EmitRoundtripAllWith(style), all),
        (Call::EmitRoundtrip, one),
        (Call::EmitRoundtripWith(style), one),
        (Call::EmitRoundtripDump(pair.settings), one),
    ];
    for (call, decks) in calls {
        let Some([before, after]) = both(&call, decks, ask)? else {
            continue;
        };
        if before.bytes != after.bytes {
            return Err(format!("the document's bytes, {}", archive::name(&call)));
        }
    }
    Ok(())
}

/// Whether the document is handed back is as computed and, unless the include is its root, stays.
fn documents_back(pair: &Pair, one: &[Deck; 2], ask: Ask, seen: &mut Seen) -> Result<(), String> {
    let Some(said) = both(&Call::LocalModified, one, ask)? else {
        return Ok(());
    };
    for (said, documents) in said.iter().zip([&pair.before, &pair.after]) {
        let places = places(std::slice::from_ref(&documents[pair.document]));
        if said.yes != reached(&places)[0] {
            return Err("whether the document is handed back, by its marks".to_owned());
        }
    }
    seen.yes = said[0].yes;
    if !seen.root && said[0].yes != said[1].yes {
        return Err("whether the document is handed back, before and after".to_owned());
    }
    Ok(())
}

/// The files that are handed back are those computed, each is its node without the include, and those around the include stay.
fn files_back(pair: &Pair, all: &[Deck; 2], ask: Ask, seen: &mut Seen) -> Result<(), String> {
    let Some(said) = both(&Call::CollectChangedIncludeChanges, all, ask)? else {
        return Ok(());
    };
    let wanted = [&pair.before, &pair.after].map(|documents| handed_back(&places(documents)));
    for (said, wanted) in said.iter().zip(&wanted) {
        let ids: Vec<u32> = said.files.iter().map(|(id, _)| *id).collect();
        let right: Vec<u32> = wanted.iter().map(|(_, id)| *id).collect();
        if ids != right {
            return Err(format!("the files handed back: {ids:?} and not {right:?}"));
        }
    }
    for (at, file) in wanted[1].iter().map(|(at, _)| *at).zip(&said[1].files) {
        let node = node_at(&mut pair.after.clone(), at).clone();
        if alone(node, ask).is_some_and(|bytes| bytes != file.1) {
            return Err(format!("the bytes of the file at {at}"));
        }
    }
    let file = |run: usize, at: usize| {
        let index = wanted[run].iter().position(|(place, _)| *place == at);
        index.map(|index| &said[run].files[index].1)
    };
    seen.own_back = [0, 1].map(|run| file(run, pair.at).is_some());
    let before = places(&pair.before);
    for up in above(&before, pair.at) {
        if before[up].include.is_none() {
            continue;
        }
        seen.around += 1;
        match (file(0, up), file(1, up)) {
            (None, None) => {}
            (Some(before), Some(after)) if before == after => seen.back += 1,
            (Some(_), Some(_)) => return Err(format!("the bytes of the file around it, at {up}")),
            _ => return Err(format!("whether the file at {up} is handed back")),
        }
    }
    Ok(())
}

/// A node without its include, as a document under plain settings.
fn alone(mut node: YamlNode, ask: Ask) -> Option<Vec<u8>> {
    node.source = None;
    let deck = build(&[node], POOLINGS[0], &mut Rng::new(0));
    let said = ask(&Call::EmitRoundtrip, &deck)?;
    (said.number == 0).then_some(said.bytes)
}
