//! Messages to and from the process that has the archive. The other side is here a stand-in made of the Rust, which reads a request as
//! `src/apart.rs` describes it, knowing nothing of how it is written.

use oracle::apart::{read_answer, request, Process};
use oracle::archive::{Answer, Entry};
use oracle::calls::{outcome, Call, Change, Lent, Outcome, Settings};
use oracle::encode::NullStyle;
use oracle::random::{lending, Rng};
use oracle::{draws, included};
use std::io::ErrorKind;
use std::process::Command;

/// What is left to read.
struct Rest<'a>(&'a [u8]);

impl<'a> Rest<'a> {
    fn bytes(&mut self, count: usize) -> Option<&'a [u8]> {
        let (front, rest) = self.0.split_at_checked(count)?;
        self.0 = rest;
        Some(front)
    }

    fn number(&mut self) -> Option<usize> {
        let digits = self.bytes(8)?.iter().rev();
        Some(digits.fold(0, |number, &byte| 256 * number + usize::from(byte)))
    }

    fn change(&mut self) -> Option<Change> {
        Some(Change {
            id: u32::try_from(self.number()?).ok()?,
            start: self.number()?,
            length: self.number()?,
        })
    }
}

fn call(number: usize, settings: Settings) -> Option<Call> {
    let calls = [
        Call::EmitRoundtrip,
        Call::EmitRoundtripWith(settings.null_style),
        Call::EmitRoundtripAllWith(settings.null_style),
        Call::EmitRoundtripDump(settings),
        Call::LocalModified,
        Call::CollectChangedIncludeChanges,
    ];
    calls.get(number).copied()
}

fn settings(rest: &mut Rest) -> Option<Settings> {
    let styles = [NullStyle::Null, NullStyle::Empty, NullStyle::Tilde];
    Some(Settings {
        null_style: *styles.get(rest.number()?)?,
        indent_sequences: rest.number()? != 0,
        explicit_end: rest.number()? != 0,
        indent: rest.number()?,
        indentless: rest.number()? != 0,
        single_quotes: rest.number()? != 0,
        width: rest.number()?,
    })
}

/// The request, where it is a whole one and nothing more.
fn taken(request: &[u8]) -> Option<(Call, Lent)> {
    let rest = &mut Rest(request);
    let number = rest.number()?;
    let (deck, pool) = (rest.number()?, rest.number()?);
    let (output, list) = (rest.number()?, rest.number()?);
    let call = call(number, settings(rest)?)?;
    let lent = Lent {
        deck: rest.bytes(deck)?.to_vec(),
        pool: rest.bytes(pool)?.to_vec(),
        output: rest.bytes(output)?.to_vec(),
        list: (0..list).map(|_| rest.change()).collect::<Option<_>>()?,
    };
    rest.0.is_empty().then_some((call, lent))
}

fn words<const N: usize>(numbers: [usize; N]) -> Vec<u8> {
    numbers.map(usize::to_le_bytes).concat()
}

fn given(came: &Outcome) -> Vec<u8> {
    let length = 6 * 8 + came.output.len() + came.list.len() * 3 * 8;
    let yes = usize::from(came.yes);
    let mut bytes = words([
        length,
        came.number,
        came.place,
        came.length,
        came.count,
        yes,
    ]);
    bytes.extend(&came.output);
    for entry in &came.list {
        bytes.extend(words([entry.id as usize, entry.start, entry.length]));
    }
    bytes
}

fn entries(list: &[Change]) -> Vec<Entry> {
    let entry = |change: &Change| Entry {
        id: change.id as usize,
        start: change.start,
        length: change.length,
    };
    list.iter().map(entry).collect()
}

fn asked(call: &Call, lent: &Lent) -> Vec<u8> {
    let list = entries(&lent.list);
    request(call, &lent.deck, &lent.pool, &lent.output, &list)
}

/// Each of the six calls, on a random deck, with what it is lent.
fn cases(seed: u64) -> Vec<(Call, Lent)> {
    let rng = &mut Rng::new(seed);
    let deck = if seed % 2 == 0 {
        included::deck(rng)
    } else {
        draws::deck(rng)
    };
    let calls = lending::every_call(rng);
    let lent = calls.map(|call| (call, lending::lent(rng, &call, &deck)));
    lent.to_vec()
}

#[test]
fn there_and_back() {
    for (call, lent) in (0..500).flat_map(cases) {
        let took = taken(&asked(&call, &lent)).expect("a whole request");
        assert_eq!(took, (call, lent));
        let (call, lent) = took;
        let wanted = outcome(&call, &lent);
        let (mut output, mut list) = (lent.output.clone(), entries(&lent.list));
        let answer = read_answer(&mut &given(&wanted)[..], &mut output, &mut list).unwrap();
        let told = Answer {
            number: wanted.number,
            place: wanted.place,
            length: wanted.length,
            count: wanted.count,
            modified: u8::from(wanted.yes),
        };
        assert_eq!(answer, told, "{call:?}");
        assert_eq!(output, wanted.output, "{call:?}");
        assert_eq!(list, entries(&wanted.list), "{call:?}");
    }
}

#[test]
fn a_request_byte_by_byte() {
    let style = Call::EmitRoundtripWith(NullStyle::Tilde);
    let list = [Entry {
        id: 1,
        start: 258,
        length: 3,
    }];
    let bytes = request(&style, b"dk", b"p", b"out", &list);
    let mut wanted = words([1, 2, 1, 3, 1, 2, 0, 0, 0, 0, 0, 0]);
    wanted.extend(b"dkpout\x01\0\0\0\0\0\0\0\x02\x01\0\0\0\0\0\0\x03\0\0\0\0\0\0\0");
    assert_eq!(bytes, wanted);
}

#[test]
fn a_message_that_is_cut_short() {
    for (call, lent) in (0..8).flat_map(cases) {
        let whole = asked(&call, &lent);
        for length in 0..whole.len() {
            assert_eq!(taken(&whole[..length]), None, "{call:?}, {length}");
        }
        let whole = given(&outcome(&call, &lent));
        let (mut output, mut list) = (lent.output.clone(), entries(&lent.list));
        for length in 0..whole.len() {
            let came = read_answer(&mut &whole[..length], &mut output, &mut list);
            let error = came.expect_err("the answer is not whole");
            assert_eq!(error.kind(), ErrorKind::UnexpectedEof, "{call:?}, {length}");
            assert_eq!(output, lent.output);
            assert_eq!(list, entries(&lent.list));
        }
    }
}

#[test]
fn an_answer_of_another_length() {
    let whole = given(&Outcome {
        output: vec![7; 3],
        ..Outcome::default()
    });
    for room in [0, 2, 4, 3 + 24] {
        let came = read_answer(&mut &whole[..], &mut vec![0; room], &mut []);
        let error = came.expect_err("the output has another length");
        assert_eq!(error.to_string(), "an answer of 51 bytes");
    }
    let came = read_answer(&mut &whole[..], &mut [0; 3], &mut [Entry::default()]);
    assert!(came.is_err());
}

/// A process that takes a request of 97 bytes, and of an answer without output and list so many bytes as are named, before it ends with this status.
fn process(bytes: usize, status: i32) -> Process {
    let take = "head -c 97 >/dev/null";
    let give = format!("{{ printf 0; head -c 47 /dev/zero; }} | head -c {bytes}");
    let words = format!("{take}; {give}; exit {status}");
    Process::start(Command::new("sh").arg("-c").arg(words)).expect("sh is there")
}

#[test]
fn a_process_that_ends() {
    let request = request(&Call::LocalModified, &[0x20], &[], &[], &[]);
    assert_eq!(request.len(), 97);
    // The character 0 has the number 48, which is the answer's length.
    let mut whole = process(48, 0);
    let answer = whole.ask(&request, &mut [], &mut []).unwrap();
    assert_eq!(answer, Answer::default());
    assert_eq!(whole.end(), "exit status: 0");
    for bytes in [0, 1, 47] {
        let mut short = process(bytes, 3);
        let came = short.ask(&request, &mut [], &mut []);
        let error = came.expect_err("the answer is not whole");
        assert_eq!(error.kind(), ErrorKind::UnexpectedEof);
        assert_eq!(short.end(), "exit status: 3");
    }
}
