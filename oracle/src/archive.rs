//! The port's archive, where there is one (RASSEMOK_ARCHIVE at the build), linked or in a process of its own (`apart`): each call with its whole
//! outcome, as `calls` gives the Rust's.

use crate::calls::{Call, Change, Lent, Outcome, Settings};
use crate::encode::NullStyle;

/// What every call answers. The yes or no is read as a byte.
#[repr(C)]
#[derive(Debug, Clone, Copy, PartialEq, Eq, Default)]
pub struct Answer {
    pub number: usize,
    pub place: usize,
    pub length: usize,
    pub count: usize,
    pub modified: u8,
}

/// The settings of a dump; a mark is set where it is not zero.
#[repr(C)]
#[derive(Debug, Clone, Copy)]
pub struct Options {
    pub null_style: usize,
    pub indent_sequences: usize,
    pub explicit_end: usize,
    pub indent: usize,
    pub indentless: usize,
    pub single_quotes: usize,
    pub width: usize,
}

#[repr(C)]
#[derive(Debug, Clone, Copy, PartialEq, Eq, Default)]
pub struct Entry {
    pub id: usize,
    pub start: usize,
    pub length: usize,
}

/// A slice as two arguments: where it begins and how long it is.
#[cfg(archive)]
mod calls_of_it {
    #[allow(unused_imports)]
    use super::{Answer, Entry, Options};

    type In = *const u8;
    #[allow(dead_code)]
    type Out = *mut u8;

    extern "C" {
        #[cfg(archive_has = "emit_roundtrip")]
        pub fn rassemok_emit_roundtrip(
            d: In,
            dn: usize,
            p: In,
            pn: usize,
            o: Out,
            on: usize,
        ) -> Answer;
        #[cfg(archive_has = "emit_roundtrip_with")]
        pub fn rassemok_emit_roundtrip_with(
            d: In,
            dn: usize,
            p: In,
            pn: usize,
            o: Out,
            on: usize,
            null: usize,
        ) -> Answer;
        #[cfg(archive_has = "emit_roundtrip_all_with")]
        pub fn rassemok_emit_roundtrip_all_with(
            d: In,
            dn: usize,
            p: In,
            pn: usize,
            o: Out,
            on: usize,
            null: usize,
        ) -> Answer;
        #[cfg(archive_has = "emit_roundtrip_dump")]
        pub fn rassemok_emit_roundtrip_dump(
            d: In,
            dn: usize,
            p: In,
            pn: usize,
            o: Out,
            on: usize,
            options: Options,
        ) -> Answer;
        #[cfg(archive_has = "local_modified")]
        pub fn rassemok_local_modified(d: In, dn: usize, p: In, pn: usize) -> Answer;
        #[cfg(archive_has = "collect_changed_include_changes")]
        pub fn rassemok_collect_changed_include_changes(
            d: In,
            dn: usize,
            p: In,
            pn: usize,
            o: Out,
            on: usize,
            l: *mut Entry,
            ln: usize,
        ) -> Answer;
    }
}

/// The names of the calls that the archive has; none where there is no archive.
pub fn names() -> Vec<&'static str> {
    let all = [
        ("emit_roundtrip", cfg!(archive_has = "emit_roundtrip")),
        (
            "emit_roundtrip_with",
            cfg!(archive_has = "emit_roundtrip_with"),
        ),
        (
            "emit_roundtrip_all_with",
            cfg!(archive_has = "emit_roundtrip_all_with"),
        ),
        (
            "emit_roundtrip_dump",
            cfg!(archive_has = "emit_roundtrip_dump"),
        ),
        ("local_modified", cfg!(archive_has = "local_modified")),
        (
            "collect_changed_include_changes",
            cfg!(archive_has = "collect_changed_include_changes"),
        ),
    ];
    let there = all.iter().filter(|(_, there)| *there);
    there.map(|(name, _)| *name).collect()
}

pub fn name(call: &Call) -> &'static str {
    match call {
        Call::EmitRoundtrip => "emit_roundtrip",
        Call::EmitRoundtripWith(_) => "emit_roundtrip_with",
        Call::EmitRoundtripAllWith(_) => "emit_roundtrip_all_with",
        Call::EmitRoundtripDump(_) => "emit_roundtrip_dump",
        Call::LocalModified => "local_modified",
        Call::CollectChangedIncludeChanges => "collect_changed_include_changes",
    }
}

pub fn has(call: &Call) -> bool {
    names().contains(&name(call))
}

/// The outcome of a call that the archive has.
pub fn outcome(call: &Call, lent: &Lent) -> Outcome {
    let mut output = lent.output.clone();
    let mut list: Vec<Entry> = lent.list.iter().map(entry).collect();
    let answer = answer(call, &lent.deck, &lent.pool, &mut output, &mut list);
    Outcome {
        number: answer.number,
        place: answer.place,
        length: answer.length,
        count: answer.count,
        yes: answer.modified != 0,
        list: list.iter().map(change).collect(),
        output,
    }
}

fn entry(change: &Change) -> Entry {
    Entry {
        id: change.id as usize,
        start: change.start,
        length: change.length,
    }
}

/// An id of more than 32 bits is no id: it becomes one that nobody expects.
fn change(entry: &Entry) -> Change {
    Change {
        id: u32::try_from(entry.id).unwrap_or(0xbad_bad),
        start: entry.start,
        length: entry.length,
    }
}

pub fn null_number(style: NullStyle) -> usize {
    match style {
        NullStyle::Null => 0,
        NullStyle::Empty => 1,
        NullStyle::Tilde => 2,
    }
}

/// A mark that is set may be any number but zero; which one follows from the other settings.
pub fn options(settings: &Settings) -> Options {
    let any = [1, 2, 256, usize::MAX][(settings.indent ^ settings.width) % 4];
    let mark = |set: bool| if set { any } else { 0 };
    Options {
        null_style: null_number(settings.null_style),
        indent_sequences: mark(settings.indent_sequences),
        explicit_end: mark(settings.explicit_end),
        indent: settings.indent,
        indentless: mark(settings.indentless),
        single_quotes: mark(settings.single_quotes),
        width: settings.width,
    }
}

/// The call itself, in the process.
#[cfg(archive_apart)]
pub fn answer(
    call: &Call,
    deck: &[u8],
    pool: &[u8],
    output: &mut [u8],
    list: &mut [Entry],
) -> Answer {
    assert!(has(call), "The archive has no {}.", name(call));
    crate::apart::answer(call, deck, pool, output, list)
}

/// The call itself.
#[cfg(not(archive_apart))]
#[allow(unused_variables, unreachable_code)]
pub fn answer(
    call: &Call,
    deck: &[u8],
    pool: &[u8],
    output: &mut [u8],
    list: &mut [Entry],
) -> Answer {
    let (d, dn, p, pn) = (deck.as_ptr(), deck.len(), pool.as_ptr(), pool.len());
    let (o, on) = (output.as_mut_ptr(), output.len());
    let (l, ln) = (list.as_mut_ptr(), list.len());
    // Each pointer is to the length beside it, and lives until the call returns.
    match call {
        #[cfg(archive_has = "emit_roundtrip")]
        Call::EmitRoundtrip => unsafe { calls_of_it::rassemok_emit_roundtrip(d, dn, p, pn, o, on) },
        #[cfg(archive_has = "emit_roundtrip_with")]
        Call::EmitRoundtripWith(style) => unsafe {
            calls_of_it::rassemok_emit_roundtrip_with(d, dn, p, pn, o, on, null_number(*style))
        },
        #[cfg(archive_has = "emit_roundtrip_all_with")]
        Call::EmitRoundtripAllWith(style) => unsafe {
            calls_of_it::rassemok_emit_roundtrip_all_with(d, dn, p, pn, o, on, null_number(*style))
        },
        #[cfg(archive_has = "emit_roundtrip_dump")]
        Call::EmitRoundtripDump(settings) => unsafe {
            calls_of_it::rassemok_emit_roundtrip_dump(d, dn, p, pn, o, on, options(settings))
        },
        #[cfg(archive_has = "local_modified")]
        Call::LocalModified => unsafe { calls_of_it::rassemok_local_modified(d, dn, p, pn) },
        #[cfg(archive_has = "collect_changed_include_changes")]
        Call::CollectChangedIncludeChanges => unsafe {
            calls_of_it::rassemok_collect_changed_include_changes(d, dn, p, pn, o, on, l, ln)
        },
        #[allow(unreachable_patterns)]
        _ => panic!("The archive has no {}.", name(call)),
    }
}
