//! Finds the Rust source of YAMLRocks and writes the declarations by which it is compiled, unchanged, into this library. Where RASSEMOK_ARCHIVE
//! names the port's archive, the library is told which of the calls it has, and the archive is linked, or reached in a process of its own.

use std::path::{Path, PathBuf};
use std::{env, fs, process};

/// The calls that an archive may have, each `rassemok_` and this.
const CALLS: [&str; 6] = [
    "emit_roundtrip",
    "emit_roundtrip_with",
    "emit_roundtrip_all_with",
    "emit_roundtrip_dump",
    "local_modified",
    "collect_changed_include_changes",
];

/// Where the source lies when YAMLROCKS_SRC does not say so, seen from this package.
const BESIDE: &str = "../../shared/docs/src";

fn main() {
    println!("cargo:rerun-if-env-changed=YAMLROCKS_SRC");
    let root = source_root().join("src");
    let emit_util = file(&root, "emit_util.rs");
    let ast = file(&root, "roundtrip/ast.rs");
    let emit = file(&root, "roundtrip/emit.rs");
    let encode = match fs::read_to_string(file(&root, "encode/mod.rs")) {
        Ok(text) => text,
        Err(error) => fail(&format!("src/encode/mod.rs cannot be read: {error}.")),
    };
    let null_style = item(&encode, "pub enum NullStyle ");
    let breakable = item(&encode, "pub(crate) fn has_breakable_space(");
    // canonical_float and other things that no ported call uses stay unused here.
    let text = format!(
        "#[allow(dead_code)]\n#[path = {emit_util:?}]\npub mod emit_util;\n\
         pub mod encode {{\n{null_style}\n{breakable}\n}}\n\
         pub mod roundtrip {{\n#[path = {ast:?}]\npub mod ast;\n#[path = {emit:?}]\npub mod emit;\n}}\n"
    );
    let out = PathBuf::from(env::var_os("OUT_DIR").expect("cargo sets OUT_DIR"));
    if let Err(error) = fs::write(out.join("yamlrocks.rs"), text) {
        fail(&format!("The declarations cannot be written: {error}."));
    }
    find_archive();
}

/// Sets `archive_has` for each call that is there, and `archive` where the archive is linked, `archive_apart` where it is not.
fn find_archive() {
    println!("cargo:rerun-if-env-changed=RASSEMOK_ARCHIVE");
    println!("cargo:rerun-if-env-changed=RASSEMOK_APART");
    println!("cargo:rerun-if-env-changed=RASSEMOK_LINKED");
    println!("cargo:rustc-check-cfg=cfg(archive, archive_apart)");
    println!(
        "cargo:rustc-check-cfg=cfg(archive_has, values({}))",
        quoted(&CALLS)
    );
    let Some(path) = env::var_os("RASSEMOK_ARCHIVE").map(PathBuf::from) else {
        return;
    };
    let named = path.file_name().is_some_and(|name| name == "librassemok.a");
    let (Ok(bytes), Ok(path), true) = (fs::read(&path), path.canonicalize(), named) else {
        fail(&format!(
            "RASSEMOK_ARCHIVE is no file librassemok.a: {}.",
            path.display()
        ));
    };
    println!("cargo:rerun-if-changed={}", path.display());
    for call in CALLS {
        // In tables of symbols a name ends with a zero.
        let symbol = format!("rassemok_{call}\0").into_bytes();
        if bytes.windows(symbol.len()).any(|window| window == symbol) {
            println!("cargo:rustc-cfg=archive_has={call:?}");
        }
    }
    if is_apart() {
        println!("cargo:rustc-cfg=archive_apart");
        return;
    }
    println!("cargo:rustc-cfg=archive");
    let folder = path.parent().expect("a file has a folder");
    println!("cargo:rustc-link-search=native={}", folder.display());
    println!("cargo:rustc-link-lib=static=rassemok");
}

/// The archive is for x86-64: nothing else links it. RASSEMOK_APART asks for the process there too. RASSEMOK_LINKED says that this archive is for the
/// machine at hand.
fn is_apart() -> bool {
    let machine = env::var("CARGO_CFG_TARGET_ARCH").expect("cargo sets CARGO_CFG_TARGET_ARCH");
    !is_asked("RASSEMOK_LINKED") && (machine != "x86_64" || is_asked("RASSEMOK_APART"))
}

fn is_asked(name: &str) -> bool {
    env::var_os(name).is_some_and(|asked| !asked.is_empty())
}

fn quoted(words: &[&str]) -> String {
    let all: Vec<String> = words.iter().map(|word| format!("{word:?}")).collect();
    all.join(", ")
}

/// Ends the build with a sentence.
fn fail(sentence: &str) -> ! {
    eprintln!("{sentence}");
    process::exit(1);
}

/// The folder that holds src/roundtrip/emit.rs, as an absolute path.
fn source_root() -> PathBuf {
    let named = env::var_os("YAMLROCKS_SRC").map(PathBuf::from);
    let root = named.unwrap_or_else(|| PathBuf::from(BESIDE));
    match root.canonicalize() {
        Ok(folder) if folder.join("src/roundtrip/emit.rs").is_file() => folder,
        _ => fail(&format!(
            "The Rust source of YAMLRocks is not in {}: set YAMLROCKS_SRC to the folder that holds src/roundtrip/emit.rs.",
            root.display()
        )),
    }
}

/// A file of the source, which cargo is told to watch.
fn file(root: &Path, name: &str) -> PathBuf {
    let path = root.join(name);
    println!("cargo:rerun-if-changed={}", path.display());
    if !path.is_file() {
        fail(&format!(
            "The Rust source of YAMLRocks has no file src/{name}."
        ));
    }
    path
}

/// The text of the item whose first line begins so, with the attributes and comments right above it.
fn item(text: &str, beginning: &str) -> String {
    let lines: Vec<&str> = text.lines().collect();
    let Some(start) = lines.iter().position(|line| line.starts_with(beginning)) else {
        fail(&format!(
            "src/encode/mod.rs of YAMLRocks has no line that begins with `{beginning}`."
        ));
    };
    let above = lines[..start]
        .iter()
        .rev()
        .take_while(|line| line.starts_with("#[") || line.starts_with("///"))
        .count();
    let mut open = 0;
    for (index, line) in lines.iter().enumerate().skip(start) {
        open += line.matches('{').count();
        open -= line.matches('}').count();
        if open == 0 {
            return lines[start - above..=index].join("\n");
        }
    }
    fail(&format!(
        "The item `{beginning}` in src/encode/mod.rs of YAMLRocks does not end."
    ));
}
