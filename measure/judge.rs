//! Times of the judge: the best of many calls of each case.
use std::hint::black_box;
use std::time::Instant;

#[repr(C)]
struct Slice {
    start: *const u8,
    len: usize,
}

extern "C" {
    fn bench_judge(deck: Slice, pool: Slice) -> usize;
}

fn judge(deck: &[u8], pool: &[u8]) -> usize {
    let lent = |s: &[u8]| Slice {
        start: s.as_ptr(),
        len: s.len(),
    };
    unsafe { bench_judge(lent(deck), lent(pool)) }
}

fn time(name: &str, turns: u32, deck: &[u8], pool: &[u8]) {
    let best = (0..20)
        .map(|_| {
            let start = Instant::now();
            for _ in 0..turns {
                black_box(judge(black_box(deck), black_box(pool)));
            }
            start.elapsed() / turns
        })
        .min()
        .unwrap();
    println!("{name}: answer {}, {best:?} a call", judge(deck, pool));
}

/// 13,000 directives (record 08), each with its reference, and a null.
fn directives(reference: impl Fn(u16) -> (u16, u16)) -> Vec<u8> {
    let mut deck = vec![];
    for i in 0..13000 {
        let (from, len) = reference(i);
        deck.push(0x08);
        deck.extend(from.to_le_bytes());
        deck.extend(len.to_le_bytes());
    }
    deck.push(0x20);
    deck
}

fn main() {
    let good = vec![b'a'; 65536];
    let mut bad = good.clone();
    bad[65535] = 0xff;
    let mut wide = "é".repeat(32767).into_bytes();
    wide.extend([b'a', 0xff]);
    let same = directives(|_| (0, 65535));
    let many = directives(|i| (i % 5000, 65535 - i % 5000));
    time("13,000 references to one text, good pool", 20, &same, &good);
    time("the same beside one bad byte", 20, &same, &bad);
    time("the same of two-byte characters", 20, &same, &wide);
    time(
        "13,000 references from 5,000 places beside one bad byte",
        20,
        &many,
        &bad,
    );
    let scalar = [0x21, 0, 0, 3, 0, 0];
    time("one scalar, good pool", 10000, &scalar, b"abc");
    time("one scalar beside one bad byte", 10000, &scalar, b"abc\xff");
}
