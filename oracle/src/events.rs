//! What a YAML reader should see of a tree: documents, collections, scalars with their values, aliases, and their tags and anchors. Also the
//! reading of the event lines that the readers write, in the form of the YAML test suite.

use crate::roundtrip::ast::{NodeStyle, YamlNode, YamlNodeKind};
use crate::scanner::ScalarStyle;

#[derive(Debug, Clone, PartialEq, Eq, Default)]
pub struct Properties {
    pub anchor: Option<String>,
    pub tag: Option<String>,
}

#[derive(Debug, Clone, PartialEq, Eq)]
pub enum Event {
    Document,
    Mapping(Properties),
    Sequence(Properties),
    Scalar(Properties, String),
    /// A plain scalar without a tag that is empty, `null` or `~`.
    Null(Properties),
    Alias(String),
    End,
}

/// The events of these documents.
pub fn of_documents(documents: &[YamlNode]) -> Vec<Event> {
    let mut events = Vec::new();
    for document in documents {
        events.push(Event::Document);
        of_node(document, true, false, &mut events);
        events.push(Event::End);
    }
    events
}

/// An include is seen as its directive where one is written: not in flow, and not as a key.
fn of_node(node: &YamlNode, directive: bool, flow: bool, events: &mut Vec<Event>) {
    if let (Some(source), true) = (&node.source, directive && !flow) {
        let tag = Some(source.tag.clone());
        let properties = Properties { anchor: None, tag };
        events.push(Event::Scalar(properties, source.target.clone()));
        return;
    }
    let properties = Properties {
        anchor: node.anchor.clone(),
        tag: node.tag.as_deref().map(resolved),
    };
    let flow = flow || node.style == NodeStyle::Flow;
    match &node.kind {
        YamlNodeKind::Null => events.push(scalar(properties, true, "")),
        YamlNodeKind::Scalar(text, style) => {
            let plain = *style == ScalarStyle::Plain;
            // Of a plain scalar that is replayed a reader sees the source's spelling.
            let replayed = plain && !node.comments.modified;
            let raw = node.comments.raw.as_ref().filter(|_| replayed);
            events.push(scalar(properties, plain, raw.unwrap_or(text)));
        }
        YamlNodeKind::Alias(name) => events.push(Event::Alias(name.clone())),
        YamlNodeKind::Sequence(items) => {
            events.push(Event::Sequence(properties));
            items
                .iter()
                .for_each(|item| of_node(item, true, flow, events));
            events.push(Event::End);
        }
        YamlNodeKind::Mapping(pairs) => {
            events.push(Event::Mapping(properties));
            for (key, value) in pairs {
                of_node(key, false, flow, events);
                of_node(value, true, flow, events);
            }
            events.push(Event::End);
        }
    }
}

/// A tag of the secondary handle as readers give it.
fn resolved(tag: &str) -> String {
    match tag.strip_prefix("!!") {
        Some(name) => format!("tag:yaml.org,2002:{name}"),
        None => tag.to_owned(),
    }
}

fn scalar(properties: Properties, plain: bool, text: &str) -> Event {
    if plain && properties.tag.is_none() && matches!(text, "" | "null" | "~") {
        return Event::Null(properties);
    }
    Event::Scalar(properties, text.to_owned())
}

/// The events of a reader's lines; none where a line is not of the known form.
pub fn of_lines(lines: &[String]) -> Option<Vec<Event>> {
    let mut events = Vec::new();
    for line in lines {
        let (word, rest) = line.split_at(line.len().min(4));
        match word {
            "+STR" | "-STR" => {}
            "+DOC" => events.push(Event::Document),
            "+MAP" => events.push(Event::Mapping(properties(rest).0)),
            "+SEQ" => events.push(Event::Sequence(properties(rest).0)),
            "-DOC" | "-MAP" | "-SEQ" => events.push(Event::End),
            "=ALI" => events.push(Event::Alias(rest.strip_prefix(" *")?.to_owned())),
            "=VAL" => {
                let (properties, rest) = properties(rest);
                let rest = rest.strip_prefix(' ')?;
                let plain = rest.starts_with(':');
                events.push(scalar(properties, plain, &unescaped(rest.get(1..)?)?));
            }
            _ => return None,
        }
    }
    Some(events)
}

/// The anchor and the tag at the front, and what is left.
fn properties(mut rest: &str) -> (Properties, &str) {
    let mut found = Properties::default();
    loop {
        if let Some(after) = rest.strip_prefix(" &") {
            let end = after.find(' ').unwrap_or(after.len());
            found.anchor = Some(after[..end].to_owned());
            rest = &after[end..];
        } else if let Some(after) = rest.strip_prefix(" <") {
            let end = after.find('>').unwrap_or(after.len() - 1);
            found.tag = Some(after[..end].to_owned());
            rest = &after[end + 1..];
        } else if let Some(after) = rest.strip_prefix(" {}").or(rest.strip_prefix(" []")) {
            rest = after;
        } else {
            return (found, rest);
        }
    }
}

fn unescaped(text: &str) -> Option<String> {
    let mut made = String::new();
    let mut rest = text.chars();
    while let Some(character) = rest.next() {
        made.push(match character {
            '\\' => match rest.next()? {
                'n' => '\n',
                'r' => '\r',
                't' => '\t',
                'b' => '\u{8}',
                '0' => '\0',
                '\\' => '\\',
                _ => return None,
            },
            other => other,
        });
    }
    Some(made)
}
