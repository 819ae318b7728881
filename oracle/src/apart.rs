//! The archive in a process of its own (`apart.c`), where it is not linked. What a call is lent goes there in one message, and what it leaves comes
//! back in another.
//!
//! All numbers are of 8 bytes, little-endian. A request is twelve numbers: the call, as the fixed list numbers it; the lengths of deck, pool, output
//! and list, that of the list in entries; the seven settings. Then come deck, pool, and output and list as they are at entry, an entry as three
//! numbers. An answer is six numbers, the first of them its own length, and output and list as they are at exit. So every byte is compared, as it is
//! where the archive is linked.

use crate::archive::{self, Answer, Entry};
use crate::calls::{Call, Settings};
use crate::fixed;
use std::io::{self, BufReader, Read, Write};
use std::path::Path;
use std::process::{Child, ChildStdin, ChildStdout, Command, Stdio};
use std::sync::Mutex;

/// Started at the first call.
static PROCESS: Mutex<Option<Process>> = Mutex::new(None);

/// The outcome of a call, from the process that RASSEMOK_APART names.
pub fn answer(
    call: &Call,
    deck: &[u8],
    pool: &[u8],
    output: &mut [u8],
    list: &mut [Entry],
) -> Answer {
    let request = request(call, deck, pool, output, list);
    let mut kept = PROCESS.lock().expect("an earlier call came back");
    let mut process = kept.take().unwrap_or_else(named);
    match process.ask(&request, output, list) {
        Ok(answer) => {
            *kept = Some(process);
            answer
        }
        Err(error) => panic!(
            "{} was not answered ({error}): the process of the archive ended with {}.",
            archive::name(call),
            process.end()
        ),
    }
}

/// The process of the archive, run as `oracle/kit` runs it on this machine.
fn named() -> Process {
    let Some(program) = std::env::var_os("RASSEMOK_APART") else {
        panic!("RASSEMOK_APART names no program: oracle/linked sets it.");
    };
    let mut command = Command::new(Path::new(env!("CARGO_MANIFEST_DIR")).join("kit"));
    match Process::start(command.arg("run").arg(program)) {
        Ok(process) => process,
        Err(error) => panic!("The process of the archive cannot be started: {error}."),
    }
}

pub struct Process {
    child: Child,
    requests: ChildStdin,
    answers: BufReader<ChildStdout>,
}

impl Process {
    pub fn start(command: &mut Command) -> io::Result<Process> {
        let piped = command.stdin(Stdio::piped()).stdout(Stdio::piped());
        let mut child = piped.spawn()?;
        let requests = child.stdin.take().expect("its input is piped");
        let answers = child.stdout.take().expect("its output is piped");
        Ok(Process {
            child,
            requests,
            answers: BufReader::new(answers),
        })
    }

    /// Output and list are set where the answer is whole.
    pub fn ask(
        &mut self,
        request: &[u8],
        output: &mut [u8],
        list: &mut [Entry],
    ) -> io::Result<Answer> {
        self.requests.write_all(request)?;
        read_answer(&mut self.answers, output, list)
    }

    /// Closes its input, and waits for the end: in words, how it ended.
    pub fn end(self) -> String {
        let Process {
            mut child,
            requests,
            answers,
        } = self;
        drop((requests, answers));
        match child.wait() {
            Ok(status) => status.to_string(),
            Err(error) => error.to_string(),
        }
    }
}

pub fn request(call: &Call, deck: &[u8], pool: &[u8], output: &[u8], list: &[Entry]) -> Vec<u8> {
    let options = archive::options(&settings(call));
    let numbers = [
        usize::from(fixed::number(call)),
        deck.len(),
        pool.len(),
        output.len(),
        list.len(),
        options.null_style,
        options.indent_sequences,
        options.explicit_end,
        options.indent,
        options.indentless,
        options.single_quotes,
        options.width,
    ];
    let mut bytes = Vec::new();
    bytes.extend(numbers.into_iter().flat_map(word));
    bytes.extend(deck);
    bytes.extend(pool);
    bytes.extend(&*output);
    for entry in list {
        let numbers = [entry.id, entry.start, entry.length];
        bytes.extend(numbers.into_iter().flat_map(word));
    }
    bytes
}

/// A call that has no settings, or a null style alone, has the others zero.
fn settings(call: &Call) -> Settings {
    match *call {
        Call::EmitRoundtripDump(settings) => settings,
        Call::EmitRoundtripWith(null_style) | Call::EmitRoundtripAllWith(null_style) => Settings {
            null_style,
            ..Settings::default()
        },
        _ => Settings::default(),
    }
}

fn word(number: usize) -> [u8; 8] {
    (number as u64).to_le_bytes()
}

/// An answer whose output and list have these lengths. Where it is cut short, or of another length, they stay as they are.
pub fn read_answer(
    from: &mut impl Read,
    output: &mut [u8],
    list: &mut [Entry],
) -> io::Result<Answer> {
    let mut length = [0; 8];
    from.read_exact(&mut length)?;
    let mut bytes = vec![0; 5 * 8 + output.len() + list.len() * 3 * 8];
    let [length] = numbers(&length);
    if length != 8 + bytes.len() {
        return Err(io::Error::other(format!("an answer of {length} bytes")));
    }
    from.read_exact(&mut bytes)?;
    let (front, rest) = bytes.split_at(5 * 8);
    let (written, stored) = rest.split_at(output.len());
    output.copy_from_slice(written);
    for (entry, bytes) in list.iter_mut().zip(stored.chunks_exact(3 * 8)) {
        let [id, start, length] = numbers(bytes);
        *entry = Entry { id, start, length };
    }
    let [number, place, length, count, modified] = numbers(front);
    Ok(Answer {
        number,
        place,
        length,
        count,
        modified: u8::try_from(modified).unwrap_or(u8::MAX),
    })
}

fn numbers<const N: usize>(bytes: &[u8]) -> [usize; N] {
    std::array::from_fn(|index| {
        let word = bytes[index * 8..][..8].try_into();
        u64::from_le_bytes(word.expect("eight bytes")) as usize
    })
}
