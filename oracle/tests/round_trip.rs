//! Many random documents: built into a deck and read again they are the same trees, and every call says the same of them.

use oracle::calls::{outcome, unbounded, written, Call, Lent, Outcome};
use oracle::damage::records;
use oracle::deck::{build, POOLINGS};
use oracle::judge::read;
use oracle::random::{lending, trees, Rng};
use oracle::roundtrip::ast::YamlNode;

const CASES: u64 = 20_000;

/// Documents of a size that is itself drawn: many small, some large.
fn documents(rng: &mut Rng) -> Vec<YamlNode> {
    let nodes = rng.one_of(&[1, 2, 3, 5, 8, 12, 20, 60]);
    let longest = rng.one_of(&[4, 10, 30, 80]);
    trees::documents(rng, nodes, longest)
}

#[test]
fn build_then_read() {
    for seed in 0..CASES {
        let mut rng = Rng::new(seed);
        let docs = documents(&mut rng);
        for pooling in POOLINGS {
            let deck = build(&docs, pooling, &mut rng);
            let again = read(&deck.deck, &deck.pool).unwrap_or_else(|refusal| {
                panic!("seed {seed}, {pooling:?}: {refusal:?}");
            });
            assert_eq!(format!("{docs:?}"), format!("{again:?}"), "seed {seed}");
        }
    }
}

#[test]
fn every_call_says_the_same() {
    for seed in 0..CASES {
        let mut rng = Rng::new(seed);
        let docs = documents(&mut rng);
        let pooling = rng.one_of(&POOLINGS);
        let deck = build(&docs, pooling, &mut rng);
        for call in lending::every_call(&mut rng) {
            let read = unbounded(&call, &deck.deck, &deck.pool);
            if call.takes_one_document() && docs.len() != 1 {
                assert_eq!(read.unwrap_err().number, 8);
            } else {
                assert_eq!(read.unwrap(), written(&call, &docs), "seed {seed} {call:?}");
            }
        }
    }
}

/// A document cut anywhere but at its ends is refused: 7 between records, 3 inside one.
#[test]
fn every_cut_is_refused() {
    for seed in 0..500 {
        let mut rng = Rng::new(seed);
        let doc = trees::document(&mut rng, 8, 6);
        let pooling = rng.one_of(&POOLINGS);
        let deck = build(&[doc], pooling, &mut rng);
        for record in records(&deck.deck) {
            for cut in record.clone() {
                let refusal =
                    read(&deck.deck[..cut], &deck.pool).map_err(|no| (no.number, no.place));
                if cut == 0 {
                    assert!(refusal.unwrap().is_empty());
                } else if cut == record.start {
                    assert_eq!(refusal.unwrap_err(), (7, cut));
                } else {
                    assert_eq!(refusal.unwrap_err(), (3, record.start));
                }
            }
        }
    }
}

/// What must hold of any outcome whatever the Rust writes.
fn check(call: &Call, before: &Lent, after: &Outcome) {
    assert_eq!(before.output.len(), after.output.len());
    assert_eq!(before.list.len(), after.list.len());
    match after.number {
        0 => {
            assert_eq!(after.place, 0);
            assert_eq!(before.output[after.length..], after.output[after.length..]);
            assert_eq!(before.list[after.count..], after.list[after.count..]);
            assert!(!after.yes || *call == Call::LocalModified);
        }
        1..=8 => assert_eq!((&before.output, &before.list), (&after.output, &after.list)),
        _ => {
            assert!(after.output.iter().all(|&byte| byte == 0));
            assert!(after.list.iter().all(|entry| *entry == Default::default()));
        }
    }
    if after.number != 0 {
        assert_eq!((after.length, after.count, after.yes), (0, 0, false));
    }
}

#[test]
fn rooms_of_every_size() {
    let mut met = [0; 11];
    for seed in 0..CASES {
        let mut rng = Rng::new(seed);
        let docs = documents(&mut rng);
        let pooling = rng.one_of(&POOLINGS);
        let deck = build(&docs, pooling, &mut rng);
        let call = lending::call_for(&mut rng, docs.len());
        let mut lent = lending::lent(&mut rng, &call, &deck);
        if rng.one_in(500) {
            lending::enlarge(&mut rng, &call, &mut lent);
        }
        let outcome = outcome(&call, &lent);
        check(&call, &lent, &outcome);
        met[outcome.number] += 1;
    }
    for number in [0, 1, 2, 8, 9, 10] {
        assert!(met[number] > 0, "number {number} was never met");
    }
    println!("numbers met, from 0: {met:?}");
}
