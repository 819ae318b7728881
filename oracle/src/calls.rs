//! The six calls of document 01, with their whole outcome: number, place, length, count, the yes or no, list and output.
//! The bytes come from the Rust's own functions; what is here is refusals and room.

use crate::encode::NullStyle;
use crate::judge::{self, Refusal};
use crate::roundtrip::ast::YamlNode;
use crate::roundtrip::emit::{self, DumpConfig};

pub const MOST_DECK: usize = 65_536;
pub const MOST_POOL: usize = 65_536;
pub const MOST_OUTPUT: usize = 1_048_576;
pub const MOST_LIST: usize = 4_096;
pub const MOST_STEP: usize = 16;
pub const MOST_WIDTH: usize = 65_535;
/// The output that the emit program lends itself.
pub const PROGRAM_OUTPUT: usize = 65_536;

#[derive(Debug, Clone, Copy, PartialEq, Eq, Default)]
pub struct Settings {
    pub null_style: NullStyle,
    pub indent_sequences: bool,
    pub explicit_end: bool,
    pub indent: usize,
    pub indentless: bool,
    pub single_quotes: bool,
    pub width: usize,
}

#[derive(Debug, Clone, Copy, PartialEq, Eq)]
pub enum Call {
    EmitRoundtrip,
    EmitRoundtripWith(NullStyle),
    EmitRoundtripAllWith(NullStyle),
    EmitRoundtripDump(Settings),
    CollectChangedIncludeChanges,
    LocalModified,
}

#[derive(Debug, Clone, Copy, PartialEq, Eq, Default)]
pub struct Change {
    pub id: u32,
    pub start: usize,
    pub length: usize,
}

/// What a call is lent: emission calls have no use for a list, `local_modified` for neither output nor list.
#[derive(Debug, Clone, PartialEq, Eq, Default)]
pub struct Lent {
    pub deck: Vec<u8>,
    pub pool: Vec<u8>,
    pub output: Vec<u8>,
    pub list: Vec<Change>,
}

/// Output and list are as after the call, in their lent lengths.
#[derive(Debug, Clone, PartialEq, Eq, Default)]
pub struct Outcome {
    pub number: usize,
    pub place: usize,
    pub length: usize,
    pub count: usize,
    pub yes: bool,
    pub list: Vec<Change>,
    pub output: Vec<u8>,
}

/// What a call says of well-formed documents when room is no matter.
#[derive(Debug, Clone, PartialEq, Eq, Default)]
pub struct Written {
    pub bytes: Vec<u8>,
    pub changes: Vec<Change>,
    pub yes: bool,
}

impl Call {
    pub fn is_lent_output(&self) -> bool {
        !matches!(self, Call::LocalModified)
    }

    pub fn is_lent_list(&self) -> bool {
        matches!(self, Call::CollectChangedIncludeChanges)
    }

    pub fn takes_one_document(&self) -> bool {
        !matches!(
            self,
            Call::EmitRoundtripAllWith(_) | Call::CollectChangedIncludeChanges
        )
    }
}

/// The whole outcome of a call. An output or a list that the call has no use for is taken as not lent: it must be empty.
pub fn outcome(call: &Call, lent: &Lent) -> Outcome {
    assert!(
        call.is_lent_output() || lent.output.is_empty(),
        "This call is lent no output."
    );
    assert!(
        call.is_lent_list() || lent.list.is_empty(),
        "This call is lent no list."
    );
    match judged(call, lent) {
        Err(refusal) => refused(refusal, lent),
        Ok(written) => answered(written, lent),
    }
}

/// Refusals 1 to 10 in their order, or what is written.
fn judged(call: &Call, lent: &Lent) -> Result<Written, Refusal> {
    if over_settings(call) {
        return Err(at_front(1));
    }
    if over_sizes(lent) {
        return Err(at_front(2));
    }
    let written = unbounded(call, &lent.deck, &lent.pool)?;
    if written.changes.len() > lent.list.len() {
        return Err(at_front(9));
    }
    if written.bytes.len() > lent.output.len() {
        return Err(at_front(10));
    }
    Ok(written)
}

/// What the call writes with room for anything, or its refusal from 3 to 8.
pub fn unbounded(call: &Call, deck: &[u8], pool: &[u8]) -> Result<Written, Refusal> {
    let documents = judge::read(deck, pool)?;
    if call.takes_one_document() && documents.len() != 1 {
        return Err(at_front(8));
    }
    Ok(written(call, &documents))
}

/// What the Rust writes of these documents. A one-document call must be given one.
pub fn written(call: &Call, documents: &[YamlNode]) -> Written {
    let bytes = match call {
        Call::EmitRoundtrip => emit::emit_roundtrip(&documents[0]),
        Call::EmitRoundtripWith(style) => emit::emit_roundtrip_with(&documents[0], *style),
        Call::EmitRoundtripAllWith(style) => emit::emit_roundtrip_all_with(documents, *style),
        Call::EmitRoundtripDump(settings) => {
            emit::emit_roundtrip_dump(&documents[0], settings.null_style, dump_config(settings))
        }
        Call::CollectChangedIncludeChanges => return changed_files(documents),
        Call::LocalModified => {
            let yes = emit::local_modified(&documents[0]);
            return Written {
                yes,
                ..Written::default()
            };
        }
    };
    Written {
        bytes,
        ..Written::default()
    }
}

/// The changed files one after another, each with its place in the output.
fn changed_files(documents: &[YamlNode]) -> Written {
    let mut written = Written::default();
    for (id, file) in emit::collect_changed_include_changes(documents) {
        written.changes.push(Change {
            id,
            start: written.bytes.len(),
            length: file.len(),
        });
        written.bytes.extend_from_slice(&file);
    }
    written
}

fn dump_config(settings: &Settings) -> DumpConfig {
    DumpConfig {
        indent_sequences: settings.indent_sequences,
        explicit_end: settings.explicit_end,
        indent: settings.indent,
        indentless: settings.indentless,
        single_quotes: settings.single_quotes,
        width: settings.width,
    }
}

/// Refusal 1. The Rust itself has no limits, and a step near the largest number is more than it can write.
pub fn over_settings(call: &Call) -> bool {
    match call {
        Call::EmitRoundtripDump(settings) => {
            settings.indent > MOST_STEP || settings.width > MOST_WIDTH
        }
        _ => false,
    }
}

fn over_sizes(lent: &Lent) -> bool {
    lent.deck.len() > MOST_DECK
        || lent.pool.len() > MOST_POOL
        || lent.output.len() > MOST_OUTPUT
        || lent.list.len() > MOST_LIST
}

fn at_front(number: usize) -> Refusal {
    Refusal { number, place: 0 }
}

fn refused(refusal: Refusal, lent: &Lent) -> Outcome {
    // Want of room clears what was lent; every other refusal leaves it alone.
    let (list, output) = if refusal.number >= 9 {
        (
            vec![Change::default(); lent.list.len()],
            vec![0; lent.output.len()],
        )
    } else {
        (lent.list.clone(), lent.output.clone())
    };
    Outcome {
        number: refusal.number,
        place: refusal.place,
        list,
        output,
        ..Outcome::default()
    }
}

fn answered(written: Written, lent: &Lent) -> Outcome {
    let mut list = lent.list.clone();
    list[..written.changes.len()].copy_from_slice(&written.changes);
    let mut output = lent.output.clone();
    output[..written.bytes.len()].copy_from_slice(&written.bytes);
    Outcome {
        number: 0,
        place: 0,
        length: written.bytes.len(),
        count: written.changes.len(),
        yes: written.yes,
        list,
        output,
    }
}

/// What the emit program writes when it reads this input.
pub fn program(input: &[u8]) -> Vec<u8> {
    let Some((head, rest)) = input.split_first_chunk::<4>() else {
        return program_on(&[], &[]);
    };
    let stated = u32::from_le_bytes(*head) as usize;
    if stated > MOST_DECK {
        return refusal_line(at_front(2));
    }
    let (deck, pool) = rest.split_at(stated.min(rest.len()));
    program_on(deck, pool)
}

fn program_on(deck: &[u8], pool: &[u8]) -> Vec<u8> {
    let lent = Lent {
        deck: deck.to_vec(),
        pool: pool.to_vec(),
        output: vec![0; PROGRAM_OUTPUT],
        list: Vec::new(),
    };
    match judged(&Call::EmitRoundtripAllWith(NullStyle::Null), &lent) {
        Err(refusal) => refusal_line(refusal),
        Ok(written) => written.bytes,
    }
}

fn refusal_line(refusal: Refusal) -> Vec<u8> {
    format!("refused {} at {}\n", refusal.number, refusal.place).into_bytes()
}
