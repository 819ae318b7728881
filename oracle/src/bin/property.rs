//! Demand 3 on the archive: `property SEED PAIRS [FROM]`. Each pair is a tree with an include reached only through block collections and never
//! through a key, and the same tree with something changed in what it brought in. The last line is `N pairs, M differ`.

use oracle::archive;
use oracle::calls::Call;
use oracle::deck::{build, Pooling};
use oracle::property::{ask_the_archive, check, pair, Pair, Seen};
use oracle::random::Rng;
use std::collections::BTreeMap;
use std::process::exit;

/// After so many differences nobody reads on.
const MOST_SHOWN: usize = 5;

fn main() {
    let words: Vec<String> = std::env::args().skip(1).collect();
    let numbers: Vec<u64> = words.iter().map_while(|word| word.parse().ok()).collect();
    let (seed, pairs, from) = match numbers[..] {
        [seed, pairs] if words.len() == 2 => (seed, pairs, 0),
        [seed, pairs, from] if words.len() == 3 => (seed, pairs, from),
        _ => fail("usage: property SEED PAIRS [FROM], all numbers"),
    };
    if archive::names().is_empty() {
        fail("No archive is linked: set RASSEMOK_ARCHIVE to librassemok.a and build again.");
    }
    for call in [Call::LocalModified, Call::CollectChangedIncludeChanges] {
        if !archive::has(&call) {
            println!(
                "The archive has no {}: it is not tried.",
                archive::name(&call)
            );
        }
    }
    let mut count = Count::default();
    for number in from..from + pairs {
        let rng = &mut Rng::new(seed.wrapping_mul(0x1000_0000).wrapping_add(number));
        let pair = pair(rng);
        match check(rng, &pair, &ask_the_archive) {
            Ok(seen) => count.note(&pair, &seen),
            Err(why) => count.differs(number, &pair, &why),
        }
    }
    count.tell();
    println!("{pairs} pairs, {} differ", count.differ);
    exit(i32::from(count.differ > 0));
}

fn fail(why: &str) -> ! {
    eprintln!("{why}");
    exit(2)
}

#[derive(Default)]
struct Count {
    differ: usize,
    root: usize,
    nested: usize,
    around: usize,
    back: usize,
    yes: usize,
    own: BTreeMap<[bool; 2], usize>,
    what: BTreeMap<&'static str, usize>,
}

impl Count {
    fn note(&mut self, pair: &Pair, seen: &Seen) {
        self.root += usize::from(seen.root);
        self.nested += usize::from(seen.around > 0);
        self.around += seen.around;
        self.back += seen.back;
        self.yes += usize::from(seen.yes);
        *self.own.entry(seen.own_back).or_default() += 1;
        *self.what.entry(pair.what).or_default() += 1;
    }

    fn differs(&mut self, number: u64, pair: &Pair, why: &str) {
        self.differ += 1;
        if self.differ > MOST_SHOWN {
            return;
        }
        println!("pair {number} differs: {why}");
        println!("  the include at {}, changed: {}", pair.at, pair.what);
        for (word, documents) in [("before", &pair.before), ("after", &pair.after)] {
            let deck = build(documents, Pooling::Shared, &mut Rng::new(0));
            println!(
                "  {word}: deck {} pool {}",
                hex(&deck.deck),
                hex(&deck.pool)
            );
        }
    }

    fn tell(&self) {
        for (what, times) in &self.what {
            println!("changed: {what}, {times} times");
        }
        let own = |back| self.own.get(&back).copied().unwrap_or(0);
        println!(
            "its own file handed back in both {} times, before alone {}, after alone {}, in neither {}",
            own([true, true]),
            own([true, false]),
            own([false, true]),
            own([false, false])
        );
        println!(
            "{} includes are their document's root; {} lie in others, {} files around them, {} of them handed back",
            self.root, self.nested, self.around, self.back
        );
        println!("{} documents are handed back", self.yes);
    }
}

fn hex(bytes: &[u8]) -> String {
    let digits: String = bytes.iter().map(|byte| format!("{byte:02x}")).collect();
    if digits.is_empty() {
        "-".to_owned()
    } else {
        digits
    }
}
