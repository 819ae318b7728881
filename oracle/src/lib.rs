//! The oracle: the round-trip emitter of YAMLRocks, compiled unchanged from its own text, with the deck, the refusals
//! and the calls of document 01 around it. It says what the port must answer, for any input.

pub mod antt;
pub mod apart;
pub mod archive;
pub mod calls;
pub mod damage;
pub mod deck;
pub mod draws;
pub mod events;
pub mod example;
pub mod extremes;
pub mod fixed;
pub mod included;
pub mod judge;
pub mod kinds;
pub mod leaf_rows;
pub mod leaves;
pub mod property;
pub mod random;
pub mod reading;
pub mod recipes;
pub mod scratch;
pub mod shrink;
pub mod source;
pub mod theorems;

// emit_util, encode, roundtrip::ast and roundtrip::emit.
include!(concat!(env!("OUT_DIR"), "/yamlrocks.rs"));

/// What the Rust takes from its scanner: the five styles and the place of a node, of which emission reads the column.
pub mod scanner {
    #[derive(Debug, Clone, Copy, PartialEq, Eq)]
    pub enum ScalarStyle {
        Plain,
        SingleQuoted,
        DoubleQuoted,
        Literal,
        Folded,
    }

    #[derive(Debug, Clone, Copy, PartialEq, Eq, Default)]
    pub struct Span {
        pub offset: usize,
        pub line: u32,
        pub column: u32,
    }
}

/// The Rust grows its stack here; a tree of depth 64 does not need it.
pub mod stack {
    pub fn guard<T>(call: impl FnOnce() -> T) -> T {
        call()
    }
}

/// Asked for only by `source_tag`, which no ported call uses.
pub mod decode {
    pub fn is_custom_tag(_tag: &str) -> bool {
        false
    }
}
