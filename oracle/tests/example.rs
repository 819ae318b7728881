//! The files of examples/ are what the oracle writes, and the YAML is what the Rust makes of the deck.

use oracle::{calls, example};
use std::path::PathBuf;

fn file(name: &str) -> Vec<u8> {
    let folder = PathBuf::from(env!("CARGO_MANIFEST_DIR")).join("../examples");
    std::fs::read(folder.join(name)).expect(name)
}

#[test]
fn the_files_are_as_written() {
    let deck = file("screen.deck");
    assert!(deck == example::input(), "oracle/example examples");
    assert_eq!(
        String::from_utf8_lossy(&file("screen.yaml")),
        String::from_utf8_lossy(&calls::program(&deck))
    );
}
