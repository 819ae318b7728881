//! Writes the rows of the program leaf_samples: `leaf_rows FILE`.

use oracle::leaf_rows;
use std::process::exit;

fn main() {
    let words: Vec<String> = std::env::args().skip(1).collect();
    let [file] = &words[..] else {
        eprintln!("usage: leaf_rows FILE");
        exit(2);
    };
    let rows = leaf_rows::rows();
    let bytes = leaf_rows::encode(&rows);
    if let Err(error) = std::fs::write(file, &bytes) {
        eprintln!("{file} cannot be written: {error}.");
        exit(2);
    }
    println!("{} rows in {} bytes", rows.len(), bytes.len());
}
