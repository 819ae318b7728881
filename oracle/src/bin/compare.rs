//! Compares the archive with the Rust: `compare SEED CASES [FROM]`. Random decks come first, from number FROM on, then decks at the limits. Every field of every outcome and
//! every byte of output and list is compared, also those that must stay as they were. The last line is `N compared, M differ`.

use oracle::archive;
use oracle::calls::{
    self, Call, Lent, Outcome, Settings, MOST_DECK, MOST_LIST, MOST_OUTPUT, MOST_POOL,
};
use oracle::damage::records;
use oracle::deck::Deck;
use oracle::draws;
use oracle::encode::NullStyle;
use oracle::extremes::{self, Extreme};
use oracle::included;
use oracle::random::{lending, Rng};
use std::collections::BTreeMap;
use std::process::exit;
use std::time::Instant;

/// After so many differences nobody reads on.
const MOST_SHOWN: usize = 8;
/// The most that is spent on making one smaller.
const MOST_TRIES: usize = 50_000;
const MOST_SECONDS: u64 = 8;

fn main() {
    let words: Vec<String> = std::env::args().skip(1).collect();
    let numbers: Vec<u64> = words.iter().map_while(|word| word.parse().ok()).collect();
    let (seed, cases, from) = match numbers[..] {
        [seed, cases] if words.len() == 2 => (seed, cases, 0),
        [seed, cases, from] if words.len() == 3 => (seed, cases, from),
        _ => fail("usage: compare SEED CASES [FROM], all numbers"),
    };
    // With SHOW each case is shown before it is run: the last one shown is one that did not return.
    let show_all = std::env::var_os("SHOW").is_some();
    if archive::names().is_empty() {
        fail("No archive is linked: set RASSEMOK_ARCHIVE to librassemok.a and build again.");
    }
    println!("The archive has {}.", archive::names().join(", "));
    let mut count = Count::default();
    let begun = Instant::now();
    for number in from..from + cases {
        let rng = &mut Rng::new(seed.wrapping_mul(0x1000_0000).wrapping_add(number));
        let case = random(rng);
        if show_all {
            println!("case {number}");
            show_input(&case);
        }
        count.try_one(&case);
    }
    let seconds = begun.elapsed().as_secs();
    println!("{} at random, in {seconds} s", count.compared);
    for extreme in extremes::all().into_iter().chain(included::limits()) {
        at_the_limit(&extreme, &mut count);
    }
    over_the_limits(&mut count);
    println!("{} at the limits", count.compared - cases as usize);
    count.tell();
    println!("{} compared, {} differ", count.compared, count.differ);
    exit(i32::from(count.differ > 0));
}

fn fail(why: &str) -> ! {
    eprintln!("{why}");
    exit(2)
}

/// A call and what it is lent.
#[derive(Clone)]
struct Case {
    call: Call,
    lent: Lent,
}

#[derive(Default)]
struct Count {
    compared: usize,
    differ: usize,
    met: [usize; 11],
    calls: BTreeMap<&'static str, [usize; 11]>,
    entries: usize,
    with_entries: usize,
    most_entries: usize,
    yes: usize,
}

impl Count {
    fn try_one(&mut self, case: &Case) {
        let wanted = calls::outcome(&case.call, &case.lent);
        let came = archive::outcome(&case.call, &case.lent);
        self.compared += 1;
        self.note(&case.call, &wanted);
        if came == wanted {
            return;
        }
        self.differ += 1;
        if self.differ <= MOST_SHOWN {
            show(&smallest(case.clone()));
        }
    }

    fn note(&mut self, call: &Call, wanted: &Outcome) {
        self.met[wanted.number] += 1;
        let met = self.calls.entry(archive::name(call)).or_default();
        met[wanted.number] += 1;
        self.entries += wanted.count;
        self.with_entries += usize::from(wanted.count > 0);
        self.most_entries = self.most_entries.max(wanted.count);
        self.yes += usize::from(wanted.yes);
    }

    /// How often each number was met, for each call and in all, and what the two calls about changes said.
    fn tell(&self) {
        for (name, met) in &self.calls {
            let calls: usize = met.iter().sum();
            println!("{name}: {calls} calls, numbers met, from 0: {met:?}");
        }
        println!(
            "{} calls handed back {} files, {} at most; {} documents were changed",
            self.with_entries, self.entries, self.most_entries, self.yes
        );
        println!("numbers met, from 0: {:?}", self.met);
    }
}

/// A random deck and a call that the archive has, with rooms around what is written, now and then with something over its limit.
fn random(rng: &mut Rng) -> Case {
    let includes = rng.one_in(6);
    let deck = if includes {
        included::deck(rng)
    } else {
        draws::deck(rng)
    };
    let call = if includes && rng.chance(80) {
        about_changes(rng)
    } else {
        available(rng)
    };
    let mut lent = lending::lent(rng, &call, &deck);
    if rng.one_in(5000) {
        lending::enlarge(rng, &call, &mut lent);
    }
    Case { call, lent }
}

/// One of the two calls about changes, where the archive has it.
fn about_changes(rng: &mut Rng) -> Call {
    let call = if rng.one_in(4) {
        Call::LocalModified
    } else {
        Call::CollectChangedIncludeChanges
    };
    if archive::has(&call) {
        call
    } else {
        available(rng)
    }
}

fn available(rng: &mut Rng) -> Call {
    loop {
        let call = lending::call(rng);
        if archive::has(&call) {
            return call;
        }
    }
}

/// Calls of every name, some with settings that bite.
fn every_call() -> Vec<Call> {
    let settings = Settings {
        indent: 16,
        width: 80,
        single_quotes: true,
        ..Settings::default()
    };
    let narrow = Settings {
        width: 1,
        ..settings
    };
    let all = [
        Call::EmitRoundtripAllWith(NullStyle::Null),
        Call::EmitRoundtrip,
        Call::EmitRoundtripWith(NullStyle::Tilde),
        Call::EmitRoundtripDump(settings),
        Call::EmitRoundtripDump(narrow),
        Call::LocalModified,
        Call::CollectChangedIncludeChanges,
    ];
    all.to_vec()
}

/// A deck or a pool of one byte more than its limit: refused before anything in it is looked at, but after the settings.
fn over_the_limits(count: &mut Count) {
    let too_wide = Call::EmitRoundtripDump(Settings {
        width: 65_536,
        ..Settings::default()
    });
    let calls = every_call().into_iter().chain([too_wide]);
    for call in calls.filter(archive::has) {
        for node in [0x20, 0xff] {
            for (deck, pool) in [
                (MOST_DECK + 1, 0),
                (1, MOST_POOL + 1),
                (MOST_DECK + 1, MOST_POOL + 1),
            ] {
                let deck = Deck {
                    deck: vec![node; deck],
                    pool: vec![b'a'; pool],
                };
                let room = if call.is_lent_output() { 10 } else { 0 };
                count.try_one(&lent_for(&call, &deck, room, 3));
            }
        }
    }
}

/// Every call on a deck at the limits, with rooms that are exact, one short, none and the largest.
fn at_the_limit(extreme: &Extreme, count: &mut Count) {
    let all = every_call();
    let some = if extreme.huge { 2 } else { all.len() };
    for call in all[..some].iter().filter(|call| archive::has(call)) {
        for (room, list) in rooms(call, extreme) {
            count.try_one(&lent_for(call, &extreme.deck, room, list));
        }
    }
}

/// Sizes of output and list: what is written and one less, none, the limits and one more.
fn rooms(call: &Call, extreme: &Extreme) -> Vec<(usize, usize)> {
    if extreme.huge {
        return vec![(1000, 0)];
    }
    let deck = &extreme.deck;
    let written = calls::unbounded(call, &deck.deck, &deck.pool).unwrap_or_default();
    let sizes = |exact: usize, most: usize| {
        let mut sizes = vec![exact, exact.saturating_sub(1), 0, most, most + 1];
        sizes.retain(|&size| size <= most + 1);
        sizes.sort_unstable();
        sizes.dedup();
        sizes
    };
    let outputs = sizes(written.bytes.len(), MOST_OUTPUT);
    let lists = sizes(written.changes.len(), MOST_LIST);
    let mut rooms = Vec::new();
    for &room in outputs.iter().filter(|_| call.is_lent_output()) {
        rooms.push((room, lists[lists.len() - 2]));
    }
    for &list in lists.iter().filter(|_| call.is_lent_list()) {
        rooms.push((written.bytes.len().min(MOST_OUTPUT), list));
    }
    // Both too short: want of entries is told first. Both over their limits.
    for less in [written.changes.len().saturating_sub(1), 0, MOST_LIST + 1] {
        if call.is_lent_list() {
            rooms.push((less.min(written.bytes.len().saturating_sub(1)), less));
        }
    }
    if rooms.is_empty() {
        rooms.push((0, 0));
    }
    rooms
}

fn lent_for(call: &Call, deck: &Deck, room: usize, list: usize) -> Case {
    let list = if call.is_lent_list() { list } else { 0 };
    let lent = lending::lent_of(&mut Rng::new(room as u64), deck, room, list);
    Case { call: *call, lent }
}

fn differs(case: &Case) -> bool {
    calls::outcome(&case.call, &case.lent) != archive::outcome(&case.call, &case.lent)
}

/// What is left of a case when records, bytes of the pool, room and settings are taken away and the two still differ.
fn smallest(mut case: Case) -> Case {
    let begun = Instant::now();
    let mut tries = 0;
    'again: loop {
        for smaller in steps(&case) {
            tries += 1;
            if tries > MOST_TRIES || begun.elapsed().as_secs() >= MOST_SECONDS {
                return case;
            }
            if differs(&smaller) {
                case = smaller;
                continue 'again;
            }
        }
        return case;
    }
}

/// Cases with a part less, large parts first.
fn steps(case: &Case) -> Vec<Case> {
    let mut made = Vec::new();
    let found = records(&case.lent.deck);
    let mut part = found.len();
    while part > 0 {
        for start in (0..found.len()).step_by(part) {
            let last = (start + part).min(found.len()) - 1;
            let mut less = case.clone();
            less.lent.deck.drain(found[start].start..found[last].end);
            made.push(less);
        }
        // A large deck has too many small parts to try them all.
        part = if found.len() > 2000 && part < 40 {
            0
        } else {
            part / 2
        };
    }
    for keep in [
        0,
        case.lent.pool.len() / 2,
        case.lent.pool.len().saturating_sub(1),
    ] {
        if keep < case.lent.pool.len() {
            let mut less = case.clone();
            less.lent.pool.truncate(keep);
            made.push(less);
        }
    }
    made.extend(smaller_rooms(case));
    made.extend(fewer_settings(case));
    made.extend(smaller_fields(case));
    made.extend(fewer_children(case));
    made
}

/// A few records less, and one less in the count of a collection before them.
fn fewer_children(case: &Case) -> Vec<Case> {
    let mut made = Vec::new();
    let found = records(&case.lent.deck);
    if found.len() > 50 {
        return made;
    }
    for (index, record) in found.iter().enumerate() {
        let [0x23 | 0x24, _, 1..=255, 0] = case.lent.deck[record.clone()][..] else {
            continue;
        };
        for first in index + 1..found.len() {
            for last in first..(first + 4).min(found.len()) {
                let mut less = case.clone();
                less.lent.deck[record.start + 2] -= 1;
                less.lent.deck.drain(found[first].start..found[last].end);
                made.push(less);
            }
        }
    }
    made
}

fn smaller_rooms(case: &Case) -> Vec<Case> {
    let less = |size: usize| {
        [0, size / 2, size.saturating_sub(1)]
            .into_iter()
            .filter(move |&keep| keep < size)
    };
    let mut made = Vec::new();
    for keep in less(case.lent.output.len()) {
        let mut smaller = case.clone();
        smaller.lent.output.truncate(keep);
        made.push(smaller);
    }
    for keep in less(case.lent.list.len()) {
        let mut smaller = case.clone();
        smaller.lent.list.truncate(keep);
        made.push(smaller);
    }
    made
}

fn fewer_settings(case: &Case) -> Vec<Case> {
    let Call::EmitRoundtripDump(settings) = case.call else {
        return Vec::new();
    };
    let change: [fn(&mut Settings); 7] = [
        |s| s.null_style = NullStyle::Null,
        |s| s.indent_sequences = false,
        |s| s.explicit_end = false,
        |s| s.indent = 0,
        |s| s.indentless = false,
        |s| s.single_quotes = false,
        |s| s.width = 0,
    ];
    let mut made = Vec::new();
    for clear in change {
        let mut less = settings;
        clear(&mut less);
        if less != settings {
            let call = Call::EmitRoundtripDump(less);
            made.push(Case {
                call,
                lent: case.lent.clone(),
            });
        }
    }
    made
}

/// Numbers of the deck brought down: bytes, and two bytes as one number, to zero, to a half or by one.
fn smaller_fields(case: &Case) -> Vec<Case> {
    let mut made = Vec::new();
    let deck = &case.lent.deck;
    if deck.len() > 300 {
        return made;
    }
    for index in 0..deck.len() {
        let low = deck[index];
        let high = deck.get(index + 1).copied().unwrap_or(0);
        let number = u16::from_le_bytes([low, high]);
        for less in [0, number / 2, number.saturating_sub(1)] {
            if less < number && high > 0 {
                let mut changed = case.clone();
                changed.lent.deck[index..index + 2].copy_from_slice(&less.to_le_bytes());
                made.push(changed);
            }
        }
        for less in [0, low / 2, low.saturating_sub(1)] {
            if less < low {
                let mut changed = case.clone();
                changed.lent.deck[index] = less;
                made.push(changed);
            }
        }
    }
    made
}

fn show(case: &Case) {
    println!("differs:");
    show_input(case);
    let lent = &case.lent;
    tell("the Rust", &calls::outcome(&case.call, lent), lent);
    tell("the archive", &archive::outcome(&case.call, lent), lent);
}

fn show_input(case: &Case) {
    let lent = &case.lent;
    println!("  {:?}", case.call);
    println!("  deck {} pool {}", hex(&lent.deck), hex(&lent.pool));
    println!("  room {} list {}", lent.output.len(), lent.list.len());
}

fn tell(who: &str, outcome: &Outcome, lent: &Lent) {
    let Outcome {
        number,
        place,
        length,
        count,
        yes,
        list,
        output,
    } = outcome;
    let rest = if output.get(*length..) == lent.output.get(*length..) {
        "the rest as it was"
    } else {
        "the rest changed"
    };
    let front = &output[..(*length).min(output.len()).min(400)];
    let entries = &list[..(*count).min(list.len()).min(4)];
    println!(
        "  {who}: number {number} place {place} length {length} count {count} yes {yes}, {rest}"
    );
    println!("    {:?} {entries:?}", String::from_utf8_lossy(front));
}

fn hex(bytes: &[u8]) -> String {
    if bytes.is_empty() {
        return "-".to_owned();
    }
    let shown = &bytes[..bytes.len().min(2000)];
    let mut made: String = shown.iter().map(|byte| format!("{byte:02x}")).collect();
    if shown.len() < bytes.len() {
        made += &format!(".. ({} bytes)", bytes.len());
    }
    made
}
