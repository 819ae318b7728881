//! Random trees: every kind, mark and style at every place, with includes and changed marks.
//! How often each optional thing occurs is drawn once for a case, so that some trees are bare and some crowded.

use super::{texts, Rng};
use crate::judge::MOST_DEPTH;
use crate::roundtrip::ast::{HeadComment, IncludeSource, NodeStyle, YamlNode, YamlNodeKind};
use crate::scanner::{ScalarStyle, Span};

/// How often each optional thing occurs, in a hundred nodes that may have it.
#[derive(Debug, Clone)]
pub struct Mood {
    pub hazard: usize,
    pub tag: usize,
    pub anchor: usize,
    pub include: usize,
    pub head: usize,
    pub inline: usize,
    pub foot: usize,
    pub raw: usize,
    pub directive: usize,
    pub blank: usize,
    pub pad: usize,
    pub column: usize,
    pub changed: usize,
    pub inline_before_value: usize,
    pub compact: usize,
    pub synthetic: usize,
    pub explicit_key: usize,
    pub explicit_start: usize,
    pub leading_bom: usize,
    pub flow: usize,
    pub empty: usize,
    pub odd_key: usize,
    pub tall: usize,
    pub plain_style: usize,
}

impl Mood {
    /// A mood of any sort; now and then one with what would hide flow lines, or shared dash lines, taken out of it.
    pub fn draw(rng: &mut Rng) -> Mood {
        let mut mood = Mood::any(rng);
        match rng.below(6) {
            0 => mood.quiet_flow(),
            1 => mood.shared_dashes(),
            _ => {}
        }
        mood
    }

    /// Without comments a flow collection stays on its line, where width and separators matter.
    fn quiet_flow(&mut self) {
        (self.head, self.inline, self.foot) = (0, 0, 0);
        (self.include, self.tall) = (self.include / 4, 0);
        self.flow = 70;
    }

    /// An item shares its dash's line only if it has no property and no comment on that line.
    fn shared_dashes(&mut self) {
        (self.tag, self.anchor, self.include) = (0, 0, 0);
        (self.inline, self.inline_before_value) = (self.inline / 4, self.inline_before_value / 4);
        (self.head, self.blank) = (self.head.max(30), self.blank.max(30));
        (self.flow, self.tall, self.compact) = (self.flow / 4, 0, self.compact.max(40));
    }

    fn any(rng: &mut Rng) -> Mood {
        let levels: &[usize] = rng.one_of(&[
            [0, 0, 0, 0, 0, 70].as_slice(),
            [0, 0, 0, 0, 20, 60].as_slice(),
            [0, 0, 0, 15, 40, 90].as_slice(),
            [0, 0, 5, 10, 20, 40].as_slice(),
            [0, 5, 15, 30, 50, 90].as_slice(),
            [30, 50, 60, 70, 80, 95].as_slice(),
        ]);
        Mood::dialled(|| rng.one_of(levels))
    }

    fn dialled(mut level: impl FnMut() -> usize) -> Mood {
        Mood {
            hazard: level().max(20),
            tag: level(),
            anchor: level(),
            include: level() * 2 / 3,
            head: level(),
            inline: level(),
            foot: level(),
            raw: level(),
            directive: level() / 2,
            blank: level(),
            pad: level(),
            column: level(),
            changed: level() / 2,
            inline_before_value: level(),
            compact: level(),
            synthetic: level(),
            explicit_key: level(),
            explicit_start: level(),
            leading_bom: level() / 2,
            flow: level(),
            empty: level() / 3,
            odd_key: level(),
            tall: level() / 2,
            plain_style: level(),
        }
    }
}

/// A mood in which a few things occur at almost every node and all else is rare: small trees of it meet what seldom meets by chance.
pub fn corner(rng: &mut Rng) -> Mood {
    let mut mood = Mood::dialled(|| 4);
    let dials = [
        &mut mood.hazard,
        &mut mood.tag,
        &mut mood.anchor,
        &mut mood.include,
        &mut mood.head,
        &mut mood.inline,
        &mut mood.foot,
        &mut mood.raw,
        &mut mood.directive,
        &mut mood.blank,
        &mut mood.pad,
        &mut mood.column,
        &mut mood.changed,
        &mut mood.inline_before_value,
        &mut mood.compact,
        &mut mood.synthetic,
        &mut mood.explicit_key,
        &mut mood.explicit_start,
        &mut mood.leading_bom,
        &mut mood.empty,
        &mut mood.odd_key,
        &mut mood.tall,
        &mut mood.plain_style,
    ];
    for _ in 0..6 {
        let chosen = rng.below(dials.len());
        *dials[chosen] = 85;
    }
    mood.flow = rng.one_of(&[0, 0, 50, 90]);
    mood
}

/// None to four documents, mostly one, of at most `nodes` nodes and texts of at most `longest` bytes.
pub fn documents(rng: &mut Rng, nodes: usize, longest: usize) -> Vec<YamlNode> {
    let mood = Mood::draw(rng);
    let count = rng.one_of(&[0, 1, 1, 1, 1, 1, 1, 2, 2, 3, 4]).min(nodes);
    shares(rng, nodes, count, 1)
        .into_iter()
        .map(|share| grow(rng, &mood, share, longest))
        .collect()
}

/// One document of at most `nodes` nodes (at least 1) and texts of at most `longest` bytes.
pub fn document(rng: &mut Rng, nodes: usize, longest: usize) -> YamlNode {
    let mood = Mood::draw(rng);
    grow(rng, &mood, nodes, longest)
}

/// One document in a given mood.
pub fn grow(rng: &mut Rng, mood: &Mood, nodes: usize, longest: usize) -> YamlNode {
    Grower { rng, mood, longest }.node(nodes, 1, false, false)
}

struct Grower<'a> {
    rng: &'a mut Rng,
    mood: &'a Mood,
    longest: usize,
}

impl Grower<'_> {
    /// A node with what is below it, `budget` nodes at most. `near`: it is a child of an include.
    fn node(&mut self, budget: usize, depth: usize, key: bool, near: bool) -> YamlNode {
        let include = self.rng.chance(self.mood.include);
        let inner = budget > 1 && depth < MOST_DEPTH && self.rng.chance(92);
        let kind = if inner {
            self.collection(budget - 1, depth, include)
        } else {
            self.leaf(key)
        };
        let column = if self.rng.chance(self.mood.column) {
            self.rng.below(7) as u32
        } else {
            0
        };
        let span = Span {
            column,
            ..Span::default()
        };
        let mut node = YamlNode::new(kind, span);
        let collection = matches!(
            node.kind,
            YamlNodeKind::Sequence(_) | YamlNodeKind::Mapping(_)
        );
        if collection && self.rng.chance(self.mood.flow) {
            node.style = NodeStyle::Flow;
        }
        if include {
            node.source = Some(self.include_source());
        }
        self.properties(&mut node);
        self.comments(&mut node);
        self.marks(&mut node, include || near);
        node
    }

    fn collection(&mut self, budget: usize, depth: usize, near: bool) -> YamlNodeKind {
        let sequence = budget < 2 || self.rng.one_in(2);
        let least = if sequence { 1 } else { 2 };
        let most = (budget / least).min(6);
        let count = if self.rng.chance(self.mood.tall) {
            1
        } else {
            self.rng.one_of(&[1, 2, 2, 2, 3, 3, 4, 6]).min(most)
        };
        let parts = shares(self.rng, budget, count, least).into_iter();
        if sequence {
            YamlNodeKind::Sequence(
                parts
                    .map(|part| self.node(part, depth + 1, false, near))
                    .collect(),
            )
        } else {
            YamlNodeKind::Mapping(parts.map(|part| self.pair(part, depth, near)).collect())
        }
    }

    fn pair(&mut self, budget: usize, depth: usize, near: bool) -> (YamlNode, YamlNode) {
        let key_budget = if budget > 2 && self.rng.chance(self.mood.odd_key) {
            self.rng.between(1, budget - 1)
        } else {
            1
        };
        let key = self.node(key_budget, depth + 1, true, near);
        let value = self.node(budget - key_budget, depth + 1, false, near);
        (key, value)
    }

    fn leaf(&mut self, key: bool) -> YamlNodeKind {
        if self.rng.chance(self.mood.empty) {
            return if self.rng.one_in(2) {
                YamlNodeKind::Sequence(Vec::new())
            } else {
                YamlNodeKind::Mapping(Vec::new())
            };
        }
        let ordinary = if key { 100 - self.mood.odd_key } else { 70 };
        if self.rng.chance(ordinary) {
            return self.scalar();
        }
        match self.rng.below(4) {
            0 => YamlNodeKind::Null,
            1 => YamlNodeKind::Alias(self.text()),
            _ => self.scalar(),
        }
    }

    fn scalar(&mut self) -> YamlNodeKind {
        let style = if self.rng.chance(self.mood.plain_style) {
            ScalarStyle::Plain
        } else {
            self.rng.one_of(&[
                ScalarStyle::Plain,
                ScalarStyle::SingleQuoted,
                ScalarStyle::DoubleQuoted,
                ScalarStyle::Literal,
                ScalarStyle::Folded,
            ])
        };
        YamlNodeKind::Scalar(self.text(), style)
    }

    fn text(&mut self) -> String {
        if self.rng.chance(self.mood.hazard) {
            texts::text(self.rng, self.longest)
        } else {
            texts::plain(self.rng, self.longest)
        }
    }

    /// Few ids, so that two includes often have the same.
    fn include_source(&mut self) -> IncludeSource {
        let tag = if self.rng.chance(70) {
            "!include".to_owned()
        } else {
            self.text()
        };
        let target_file_id = if self.rng.chance(80) {
            Some(
                self.rng
                    .one_of(&[0, 1, 1, 2, 3, 255, 256, 65_536, u32::MAX]),
            )
        } else {
            None
        };
        IncludeSource {
            tag,
            target: self.text(),
            target_file_id,
        }
    }

    fn properties(&mut self, node: &mut YamlNode) {
        if self.rng.chance(self.mood.tag) {
            node.tag = Some(self.property("!"));
        }
        if self.rng.chance(self.mood.anchor) {
            node.anchor = Some(self.property(""));
        }
        if self.rng.chance(self.mood.directive) {
            for _ in 0..self.rng.between(1, 2) {
                let directive = self.text();
                node.directives.push(directive);
            }
        }
        if self.rng.chance(self.mood.raw) {
            node.comments.raw = Some(texts::raw(self.rng, self.longest));
        }
    }

    /// Mostly a name as a reader would take it, now and then any text.
    fn property(&mut self, sign: &str) -> String {
        if self.rng.one_in(5) {
            self.text()
        } else {
            sign.to_owned() + &texts::plain(self.rng, self.longest)
        }
    }

    fn comments(&mut self, node: &mut YamlNode) {
        if self.rng.chance(self.mood.head) {
            for _ in 0..self.rng.between(1, 2) {
                let text = self.text().into();
                let below_introducer = self.rng.one_in(2);
                node.comments.head.push(HeadComment {
                    text,
                    below_introducer,
                });
            }
        }
        if self.rng.chance(self.mood.inline) {
            node.comments.inline = Some(self.text());
            node.comments.inline_spaces = self.rng.below(4) as u32;
        }
        if self.rng.chance(self.mood.foot) {
            for _ in 0..self.rng.between(1, 2) {
                let text = self.text();
                node.comments.foot.push(text);
            }
        }
    }

    fn marks(&mut self, node: &mut YamlNode, near: bool) {
        let mood = self.mood;
        if self.rng.chance(mood.blank) {
            node.comments.blank_before = self.rng.below(3) as u32;
        }
        if self.rng.chance(mood.pad) {
            node.comments.value_pad = self.rng.below(4) as u32;
        }
        // Beside an include a changed mark decides who is handed back.
        let changed = if near {
            mood.changed.max(30)
        } else {
            mood.changed
        };
        node.comments.modified = self.rng.chance(changed);
        node.comments.inline_before_value = self.rng.chance(mood.inline_before_value);
        node.comments.compact = self.rng.chance(mood.compact);
        node.synthetic = self.rng.chance(mood.synthetic);
        node.explicit_key = self.rng.chance(mood.explicit_key);
        node.explicit_start = self.rng.chance(mood.explicit_start);
        node.leading_bom = self.rng.chance(mood.leading_bom);
    }
}

/// `total` dealt out at random to `parts`, `least` or more to each; nothing left over unless there are no parts.
/// It is dealt by handfuls, so that one child of several is often large and its siblings small.
fn shares(rng: &mut Rng, total: usize, parts: usize, least: usize) -> Vec<usize> {
    let mut dealt = vec![least; parts];
    let mut left = total - parts * least;
    while left > 0 && parts > 0 {
        let handful = rng.between(1, left);
        dealt[rng.below(parts)] += handful;
        left -= handful;
    }
    dealt
}
