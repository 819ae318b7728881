//! Damaged decks: no call panics on them, every refusal has a place in the deck, and all of 3 to 7 are met.

use oracle::calls::outcome;
use oracle::damage::{damage, tower, BAD_UTF8, EDGE_UTF8, TOWERS};
use oracle::deck::{build, Deck, POOLINGS};
use oracle::judge::read;
use oracle::random::{lending, trees, Rng};

const CASES: u64 = 60_000;

fn damaged(rng: &mut Rng) -> Deck {
    let (nodes, longest) = (rng.between(1, 15), rng.between(1, 12));
    let docs = trees::documents(rng, nodes, longest);
    let pooling = rng.one_of(&POOLINGS);
    let mut deck = if rng.one_in(30) {
        let (shape, depth) = (rng.one_of(&TOWERS), rng.between(63, 66));
        tower(shape, depth, rng.one_in(2))
    } else {
        build(&docs, pooling, rng)
    };
    damage(rng, &mut deck.deck, &mut deck.pool);
    deck
}

#[test]
fn damage_never_panics() {
    let mut met = [0; 11];
    for seed in 0..CASES {
        let mut rng = Rng::new(seed);
        let deck = damaged(&mut rng);
        let call = lending::call(&mut rng);
        let lent = lending::lent(&mut rng, &call, &deck);
        let outcome = outcome(&call, &lent);
        assert!(outcome.place <= deck.deck.len(), "seed {seed}");
        met[outcome.number] += 1;
        if let Err(refusal) = read(&deck.deck, &deck.pool) {
            let at_end = refusal.place == deck.deck.len();
            assert!((3..=7).contains(&refusal.number), "seed {seed}");
            assert_eq!(refusal.number == 7, at_end, "seed {seed}");
        }
    }
    for number in [0, 1, 3, 4, 5, 6, 7, 8, 9, 10] {
        assert!(met[number] > 0, "number {number} was never met");
    }
    println!("numbers met, from 0: {met:?}");
}

#[test]
fn bytes_at_random_never_panic() {
    for seed in 0..CASES {
        let mut rng = Rng::new(seed);
        let kinds = [
            1, 2, 3, 4, 5, 6, 7, 8, 9, 0x20, 0x21, 0x22, 0x23, 0x24, 0, 0, 0, 1,
        ];
        let deck: Vec<u8> = (0..rng.below(40)).map(|_| rng.one_of(&kinds)).collect();
        let pool: Vec<u8> = (0..rng.below(600)).map(|_| rng.byte() & 0x7f).collect();
        if let Err(refusal) = read(&deck, &pool) {
            assert!(refusal.place <= deck.len(), "seed {seed}");
        }
    }
}

#[test]
fn sequences_of_bytes() {
    let number = |text: &[u8]| {
        let deck = [0x22, 0, 0, text.len() as u8, 0];
        read(&deck, text).map_or_else(|refusal| refusal.number, |_| 0)
    };
    for sequence in BAD_UTF8 {
        assert_eq!(number(sequence), 5, "{sequence:x?}");
    }
    for sequence in EDGE_UTF8 {
        assert_eq!(number(sequence), 0, "{sequence:x?}");
    }
    for byte in 0xf5..=0xff {
        assert_eq!(number(&[byte, 0x80, 0x80, 0x80]), 5);
    }
}
