//! Cases as theorems by computation: what the definitions give, beside what the Rust gives.

use crate::antt;
use crate::calls::{self, Call, Settings};
use crate::damage;
use crate::deck::{self, Deck};
use crate::encode::NullStyle;
use crate::judge;
use crate::leaves;
use crate::random::{lending, texts, trees, Rng};
use crate::roundtrip::ast::{NodeStyle, YamlNode, YamlNodeKind};
use crate::scanner::{ScalarStyle, Span};

/// A theorem that puts some values of the definitions beside those of the Rust: its name, the lines that state and prove it, how many
/// values it compares, and the case in words for whoever looks at a difference.
pub struct Theorem {
    pub name: String,
    pub text: String,
    pub compared: usize,
    /// The nodes of the trees that are compared; none where the deck is refused.
    pub nodes: usize,
    pub case: String,
}

/// One theorem for several values: what they have in common, the reading of a deck above all, is then computed once.
fn computed(name: String, before: String, pairs: &[(String, String)], case: String) -> Theorem {
    let side = |of: fn(&(String, String)) -> &String| -> String {
        pairs.iter().map(|pair| of(pair).clone() + " ∷ ").collect()
    };
    let (left, right) = (side(|pair| &pair.0), side(|pair| &pair.1));
    let text = format!(
        "{before}{name} : ({left}[]) ≡ ({right}[])\nunfolding opened leavesOf\n{name} = refl\n\n"
    );
    let compared = pairs.len();
    Theorem {
        name,
        text,
        compared,
        nodes: 0,
        case,
    }
}

fn hex(bytes: &[u8]) -> String {
    bytes.iter().map(|byte| format!("{byte:02x}")).collect()
}

/// A tree of at most `nodes` nodes through all six calls, each with rooms of its own.
pub fn tree(rng: &mut Rng, number: usize, nodes: usize, longest: usize) -> Theorem {
    let documents = if rng.chance(75) {
        vec![trees::document(rng, nodes, longest)]
    } else {
        trees::documents(rng, nodes, longest)
    };
    let pooling = rng.one_of(&deck::POOLINGS);
    let deck = deck::build(&documents, pooling, rng);
    let calls = lending::every_call(rng);
    on_deck(rng, format!("tree{number}"), &deck, &calls)
}

/// A small tree in which a few chosen things occur at almost every node, through all six calls.
pub fn corner(rng: &mut Rng, number: usize, longest: usize) -> Theorem {
    let mood = trees::corner(rng);
    let nodes = rng.between(2, 9);
    let document = trees::grow(rng, &mood, nodes, longest);
    let deck = deck::build(&[document], deck::Pooling::InOrder, rng);
    let calls = lending::every_call(rng);
    on_deck(rng, format!("corner{number}"), &deck, &calls)
}

/// A damaged deck through two calls: all documents, and one other.
pub fn damaged(rng: &mut Rng, number: usize, nodes: usize, longest: usize) -> Theorem {
    let documents = trees::documents(rng, nodes, longest);
    let pooling = rng.one_of(&deck::POOLINGS);
    let mut deck = deck::build(&documents, pooling, rng);
    damage::damage(rng, &mut deck.deck, &mut deck.pool);
    let calls = [
        Call::EmitRoundtripAllWith(lending::null_style(rng)),
        lending::call(rng),
    ];
    on_deck(rng, format!("damaged{number}"), &deck, &calls)
}

/// A scalar that can be folded, at one of the places where it stands on a line, under widths around what the line comes to.
pub fn width(rng: &mut Rng, number: usize, longest: usize) -> Theorem {
    let mut text = texts::words(rng, longest);
    text.push_str(rng.one_of(&["", "", "", ":", ": b", ",", "]", "}"]));
    let line = text.len() + 2;
    let deck = deck::build(&[placed(rng, text)], deck::Pooling::InOrder, rng);
    let calls: Vec<Call> = (0..6)
        .map(|_| {
            let width = rng.between(line.saturating_sub(5), line + 3);
            let width = if rng.one_in(3) {
                rng.between(1, 6)
            } else {
                width
            };
            Call::EmitRoundtripDump(Settings {
                width,
                ..lending::good_settings(rng)
            })
        })
        .collect();
    on_deck(rng, format!("width{number}"), &deck, &calls)
}

/// A root, or the first of two flow items, an item, a value, a key, or a value in flow.
pub fn placed(rng: &mut Rng, text: String) -> YamlNode {
    let style = rng.one_of(&[
        ScalarStyle::Plain,
        ScalarStyle::SingleQuoted,
        ScalarStyle::DoubleQuoted,
        ScalarStyle::Folded,
    ]);
    let node = |kind| YamlNode::new(kind, Span::default());
    let mut scalar = node(YamlNodeKind::Scalar(text, style));
    scalar.explicit_key = rng.one_in(2);
    let other = node(YamlNodeKind::Null);
    let made = match rng.below(6) {
        0 => scalar,
        1 => node(YamlNodeKind::Sequence(vec![scalar.clone(), scalar])),
        2 => node(YamlNodeKind::Sequence(vec![scalar])),
        3 => node(YamlNodeKind::Mapping(vec![(other, scalar)])),
        4 => node(YamlNodeKind::Mapping(vec![(scalar, other)])),
        _ => node(YamlNodeKind::Mapping(vec![(other, scalar.clone())])),
    };
    let flow = rng.one_in(2);
    made.with_style(if flow {
        NodeStyle::Flow
    } else {
        NodeStyle::Block
    })
}

/// A null or an empty scalar with properties, a comment and marks at random, as root, item or value, under every null style.
pub fn null(rng: &mut Rng, number: usize) -> Theorem {
    let kind = if rng.chance(70) {
        YamlNodeKind::Null
    } else {
        YamlNodeKind::Scalar(String::new(), ScalarStyle::Plain)
    };
    let node = |kind| YamlNode::new(kind, Span::default());
    let mut empty = node(kind);
    empty.tag = rng.one_in(2).then(|| "!t".to_owned());
    empty.anchor = rng.one_in(3).then(|| "a".to_owned());
    empty.comments.inline = rng.one_in(3).then(|| "c".to_owned());
    empty.comments.inline_before_value = rng.one_in(3);
    empty.synthetic = rng.chance(70);
    let other = node(YamlNodeKind::Alias("k".to_owned()));
    let made = match rng.below(4) {
        0 | 1 => empty,
        2 => node(YamlNodeKind::Sequence(vec![empty])),
        _ => node(YamlNodeKind::Mapping(vec![(other, empty)])),
    };
    let deck = deck::build(&[made], deck::Pooling::InOrder, rng);
    let calls = [NullStyle::Null, NullStyle::Empty, NullStyle::Tilde].map(Call::EmitRoundtripWith);
    on_deck(rng, format!("null{number}"), &deck, &calls)
}

/// Towers of depth 64 and 65, by each way down, with and without a tag on the deepest node.
pub fn towers(rng: &mut Rng) -> Vec<Theorem> {
    let mut made = Vec::new();
    for (way, tower) in damage::TOWERS.into_iter().enumerate() {
        for depth in [64, 65] {
            let mut deck = damage::tower(tower, depth, way % 2 == 1);
            let calls = [Call::EmitRoundtrip, Call::LocalModified];
            made.push(on_deck(rng, format!("tower{way}-{depth}"), &deck, &calls));
            let deepest = damage::tower_place(tower, depth);
            deck.deck.splice(deepest..deepest, [0x01, 0, 0, 0, 0]);
            made.push(on_deck(rng, format!("tagged{way}-{depth}"), &deck, &calls));
        }
    }
    made
}

/// Calls on one deck, each with rooms of its own.
pub fn on_deck(rng: &mut Rng, name: String, deck: &Deck, calls: &[Call]) -> Theorem {
    let mut pairs = Vec::new();
    let mut case = format!("deck {} pool {}", hex(&deck.deck), hex(&deck.pool));
    for call in calls {
        let lent = lending::lent(rng, call, deck);
        let came = calls::outcome(call, &lent);
        case += &format!(
            "\n  {call:?} output {} list {:?}: {came:?}",
            hex(&lent.output),
            lent.list
        );
        let given = antt::lent(&format!("{name}-deck"), &format!("{name}-pool"), &lent);
        pairs.push((
            format!("outcome {} {given}", antt::call(call)),
            antt::outcome(&came),
        ));
    }
    let before = named(&name, "deck", &deck.deck) + &named(&name, "pool", &deck.pool);
    let nodes = judge::read(&deck.deck, &deck.pool).map_or(0, |documents| count(&documents));
    Theorem {
        nodes,
        ..computed(name, before, &pairs, case)
    }
}

fn count(nodes: &[YamlNode]) -> usize {
    let below = |node: &YamlNode| match &node.kind {
        YamlNodeKind::Sequence(items) => count(items),
        YamlNodeKind::Mapping(pairs) => {
            let (keys, values): (Vec<_>, Vec<_>) = pairs.iter().cloned().unzip();
            count(&keys) + count(&values)
        }
        _ => 0,
    };
    nodes.iter().map(|node| 1 + below(node)).sum()
}

fn named(name: &str, part: &str, bytes: &[u8]) -> String {
    format!(
        "abbrev {name}-{part} : Bytes\n{name}-{part} = {}\n\n",
        antt::bytes(bytes)
    )
}

/// Byte strings around the edges of UTF-8, good and bad.
pub fn utf8(rng: &mut Rng, number: usize) -> Theorem {
    let mut pairs = Vec::new();
    let mut case = String::new();
    for _ in 0..16 {
        let mut bytes = Vec::new();
        for _ in 0..rng.between(1, 3) {
            match rng.below(4) {
                0 => bytes.extend(rng.one_of(&damage::BAD_UTF8)),
                1 => bytes.push(rng.byte()),
                _ => bytes.extend(rng.one_of(&damage::EDGE_UTF8)),
            }
        }
        let good = std::str::from_utf8(&bytes).is_ok();
        case += &format!("{} {good} ", hex(&bytes));
        let term = format!("well_formed {}", antt::bytes(&bytes));
        pairs.push((term, good.to_string()));
    }
    computed(format!("utf{number}"), String::new(), &pairs, case)
}

/// A hazardous text through the leaves.
pub fn text(rng: &mut Rng, number: usize, longest: usize) -> Theorem {
    let text = texts::text(rng, longest);
    let (start, indent, width) = (rng.below(12), rng.between(1, 6), rng.between(1, 24));
    let pair = (
        format!(
            "leavesOf {} {start} {indent} {width}",
            antt::bytes(text.as_bytes())
        ),
        leaves_of(&text, start, indent, width),
    );
    let case = format!("{text:?} start {start} indent {indent} width {width}");
    computed(format!("text{number}"), String::new(), &[pair], case)
}

/// The same through the readers of YAML, in each form in which document 01 promises that it reads back.
pub fn read_back(rng: &mut Rng, number: usize, longest: usize) -> Theorem {
    let text = texts::text(rng, longest);
    let (start, indent) = (rng.below(12), rng.between(1, 6));
    let given = antt::bytes(text.as_bytes());
    let pairs: Vec<(String, String)> = written_forms(rng, &text, &given, start, indent)
        .into_iter()
        .map(|form| (form, format!("some {given}")))
        .collect();
    let case = format!("{text:?} start {start} indent {indent}");
    computed(format!("back{number}"), String::new(), &pairs, case)
}

fn leaves_of(text: &str, start: usize, indent: usize, width: usize) -> String {
    format!(
        "leaves {} {} {} {} {} {} {} {} {} {}",
        antt::bytes(leaves::double_quoted_body(text).as_bytes()),
        antt::bytes(leaves::single_quoted_body(text).as_bytes()),
        antt::bytes(&leaves::block_scalar_header(text, b'|')),
        antt::bytes(&leaves::block_scalar_body(text, indent)),
        antt::bytes(&leaves::folded(text, start, indent, width)),
        leaves::single_capable(text),
        leaves::single_quotable(text, false),
        leaves::use_literal_block(text),
        leaves::has_breakable_space(text),
        leaves::quoted_in_flow(text)
    )
}

/// What the readers are given: double quotes always, single quotes and a literal block where the premises hold.
fn written_forms(
    rng: &mut Rng,
    text: &str,
    given: &str,
    start: usize,
    indent: usize,
) -> Vec<String> {
    let folding = antt::settings(&Settings {
        width: rng.between(1, 24),
        ..Settings::default()
    });
    let mut forms = vec![
        format!("read_double (quoted false {given})"),
        format!("read_double (quoted_folded {folding} false {given} {start})"),
    ];
    if text.chars().all(|character| character >= ' ') {
        forms.push(format!("read_single (quoted true {given})"));
        forms.push(format!(
            "read_single (quoted_folded {folding} true {given} {start})"
        ));
    }
    if leaves::use_literal_block(text) && !text.contains('\u{feff}') {
        let header = antt::bytes(&leaves::block_scalar_header(text, b'|'));
        let body = antt::bytes(&leaves::block_scalar_body(text, indent));
        forms.push(format!("read_literal ({header} ++ {body})"));
    }
    forms
}

/// An input of the emit program: a deck with its length, now and then cut, or its length misstated.
pub fn program(rng: &mut Rng, number: usize, nodes: usize, longest: usize) -> Theorem {
    let documents = trees::documents(rng, nodes, longest);
    let deck = deck::build(&documents, deck::Pooling::InOrder, rng);
    let stated = match rng.below(6) {
        0 => rng.one_of(&[65_536, 65_537, u32::MAX]),
        1 => deck.deck.len() as u32 + 1,
        _ => deck.deck.len() as u32,
    };
    let mut input = stated.to_le_bytes().to_vec();
    input.extend(&deck.deck);
    input.extend(&deck.pool);
    if rng.one_in(4) {
        input.truncate(rng.below(input.len() + 1));
    }
    let came = calls::program(&input);
    let pair = (
        format!("program {}", antt::bytes(&input)),
        antt::bytes(&came),
    );
    let case = format!("program on {}", hex(&input));
    computed(format!("program{number}"), String::new(), &[pair], case)
}
