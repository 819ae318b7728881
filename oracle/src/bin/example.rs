//! Writes the example: `example FOLDER`, screen.deck as the emit program takes it and screen.yaml, what the Rust writes of it.

use oracle::{calls, example};
use std::path::Path;
use std::process::exit;

fn main() {
    let words: Vec<String> = std::env::args().skip(1).collect();
    let [folder] = &words[..] else {
        eprintln!("usage: example FOLDER");
        exit(2);
    };
    let input = example::input();
    let files = [
        ("screen.yaml", calls::program(&input)),
        ("screen.deck", input),
    ];
    for (name, bytes) in files {
        if let Err(error) = std::fs::write(Path::new(folder).join(name), bytes) {
            eprintln!("{folder}/{name} cannot be written: {error}.");
            exit(2);
        }
    }
}
