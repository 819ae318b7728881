//! Writes the fixed list: `fixed FILE [NAMES]`, the cases with the Rust's answers and, where a second file is named, a line for each case.

use oracle::{archive, calls, fixed};
use std::process::exit;

fn main() {
    let words: Vec<String> = std::env::args().skip(1).collect();
    if words.is_empty() || words.len() > 2 {
        eprintln!("usage: fixed FILE [NAMES]");
        exit(2);
    }
    let cases = fixed::list();
    let bytes = fixed::encode(&cases);
    write(&words[0], &bytes);
    if let Some(file) = words.get(1) {
        let line = |(number, case): (usize, &fixed::Fixed)| {
            let came = calls::outcome(&case.call, &case.lent);
            format!(
                "{number} {} {}: {}\n",
                archive::name(&case.call),
                case.name,
                came.number
            )
        };
        let lines: String = cases.iter().enumerate().map(line).collect();
        write(file, lines.as_bytes());
    }
    println!("{} cases in {} bytes", cases.len(), bytes.len());
}

fn write(file: &str, bytes: &[u8]) {
    if let Err(error) = std::fs::write(file, bytes) {
        eprintln!("{file} cannot be written: {error}.");
        exit(2);
    }
}
