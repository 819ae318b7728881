//! The random trees really hold what they are meant to hold: every kind, mark and style, keys of every sort, includes at
//! every place. Each is counted over many cases and must be met.

use oracle::random::{texts, trees, Rng};
use oracle::roundtrip::ast::{NodeStyle, YamlNode, YamlNodeKind};
use std::collections::BTreeMap;

type Counts = BTreeMap<String, usize>;

/// The ways by which a node is reached.
#[derive(Clone, Copy)]
struct Place {
    name: &'static str,
    flow: bool,
    included: bool,
}

fn sort(node: &YamlNode) -> String {
    let (name, many) = match &node.kind {
        YamlNodeKind::Null => return "null".into(),
        YamlNodeKind::Alias(_) => return "alias".into(),
        YamlNodeKind::Scalar(_, style) => return format!("{style:?}"),
        YamlNodeKind::Sequence(items) => ("sequence", items.len()),
        YamlNodeKind::Mapping(pairs) => ("mapping", pairs.len()),
    };
    let size = if many == 0 { "empty " } else { "" };
    format!("{size}{:?} {name}", node.style)
}

fn features(node: &YamlNode) -> Vec<&'static str> {
    let comments = &node.comments;
    let above = comments.head_above_introducer().next().is_some();
    let below = comments.head_below_introducer().next().is_some();
    let mut all = vec![
        ("tag", node.tag.is_some()),
        ("anchor", node.anchor.is_some()),
        ("include", node.source.is_some()),
        ("head above", above),
        ("head below", below),
        ("inline", comments.inline.is_some()),
        ("foot", !comments.foot.is_empty()),
        ("directive", !node.directives.is_empty()),
        ("blank lines", comments.blank_before > 0),
        ("pad", comments.value_pad > 0),
        ("column", node.span.column > 0),
        ("changed", comments.modified),
        ("inline before value", comments.inline_before_value),
        ("compact", comments.compact),
        ("synthetic", node.synthetic),
        ("explicit key", node.explicit_key),
        ("explicit start", node.explicit_start),
        ("bom", node.leading_bom),
    ];
    all.extend(raw_features(node));
    all.retain(|(_, here)| *here);
    all.into_iter().map(|(name, _)| name).collect()
}

fn raw_features(node: &YamlNode) -> [(&'static str, bool); 6] {
    let scalar = matches!(node.kind, YamlNodeKind::Scalar(..));
    let changed = node.comments.modified;
    let raw = node.comments.raw.as_deref();
    let ends = |end| raw.is_some_and(|raw| raw.ends_with(end));
    [
        ("raw on a scalar", scalar && raw.is_some() && !changed),
        ("raw, changed", scalar && raw.is_some() && changed),
        ("raw elsewhere", !scalar && raw.is_some()),
        ("raw, empty", raw == Some("")),
        ("raw, line feed", ends('\n')),
        ("raw, carriage return", ends('\r')),
    ]
}

fn count(node: &YamlNode, place: Place, counts: &mut Counts) {
    let at = if place.flow {
        format!("{} in flow", place.name)
    } else {
        place.name.into()
    };
    *counts.entry(format!("{}: {}", at, sort(node))).or_default() += 1;
    for feature in features(node) {
        *counts.entry(format!("{at}: {feature}")).or_default() += 1;
    }
    if place.included && node.source.is_some() {
        *counts
            .entry(format!("{at}: include in an include"))
            .or_default() += 1;
    }
    let below = |name| Place {
        name,
        flow: place.flow || node.style == NodeStyle::Flow,
        included: place.included || node.source.is_some(),
    };
    match &node.kind {
        YamlNodeKind::Sequence(items) => {
            items
                .iter()
                .for_each(|item| count(item, below("item"), counts));
        }
        YamlNodeKind::Mapping(pairs) => {
            for (key, value) in pairs {
                count(key, below("key"), counts);
                count(value, below("value"), counts);
            }
        }
        _ => {}
    }
}

#[test]
fn every_thing_at_every_place() {
    let root = Place {
        name: "root",
        flow: false,
        included: false,
    };
    let mut counts = Counts::new();
    for seed in 0..20_000 {
        let mut rng = Rng::new(seed);
        for doc in trees::documents(&mut rng, 16, 12) {
            count(&doc, root, &mut counts);
        }
    }
    // 15 sorts of node and 24 features at seven places, and nested includes at six.
    let places = 7;
    let rare: Vec<_> = counts.iter().filter(|(_, &times)| times < 20).collect();
    assert!(rare.is_empty(), "too rare: {rare:?}");
    assert_eq!(counts.len(), places * (15 + 24) + 6);
}

#[test]
fn texts_hold_every_hazard() {
    let mut all = String::new();
    for seed in 0..3_000 {
        all.push_str(&texts::text(&mut Rng::new(seed), 20));
    }
    let wanted = "\"'\\\0\u{1}\u{1f}\r\t\n\u{7f}\u{80}\u{85}\u{9f}\u{a0}\u{2028}\u{feff}\u{fffd}\u{fffe}\u{ffff}\u{10000}";
    for character in wanted.chars() {
        assert!(all.contains(character), "{character:?}");
    }
    for piece in [": ", " #", "  ", "[", "]", "{", "}", ","] {
        assert!(all.contains(piece), "{piece:?}");
    }
}

#[test]
fn texts_keep_to_their_length() {
    for seed in 0..20_000 {
        let mut rng = Rng::new(seed);
        let most = rng.below(40);
        assert!(texts::text(&mut rng, most).len() <= most);
        assert!(texts::raw(&mut rng, most).len() <= most);
    }
}
