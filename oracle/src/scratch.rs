//! A scratch repository of theorems by computation, drawn from a seed and checked with the toolchain.

use crate::antt;
use crate::random::Rng;
use crate::theorems::{self, Theorem};
use std::collections::BTreeSet;
use std::path::Path;
use std::process::Command;
use std::{fs, io};

/// The most nodes of a tree: small trees cost little, and meet most of what matters.
const NODES: [usize; 4] = [4, 8, 12, 24];
const LONGEST: usize = 16;
/// How many theorems stand in one module.
const MODULE: usize = 16;
/// The crates of the scratch repository: two, which are checked side by side.
const CRATES: [&str; 2] = ["cases_a", "cases_b"];

/// For each case a tree through all calls, a damaged deck through two, and, since they cost little, three small trees with much of a few
/// things, two scalars under widths that bite, two nulls, strings around the edges of UTF-8, four texts through the leaves and two through the
/// readers; in all a few program inputs, and towers.
pub fn draw(seed: u64, cases: usize) -> Vec<Theorem> {
    let rng = &mut Rng::new(seed);
    let mut made = theorems::towers(rng);
    for number in 0..cases {
        let most = rng.one_of(&NODES);
        let nodes = rng.between(1, most);
        made.push(theorems::tree(rng, number, nodes, LONGEST));
        made.push(theorems::damaged(rng, number, nodes, LONGEST));
        made.push(theorems::utf8(rng, number));
        for part in 0..3 {
            made.push(theorems::corner(rng, 3 * number + part, LONGEST));
        }
        for part in 0..2 {
            made.push(theorems::width(rng, 2 * number + part, LONGEST));
            made.push(theorems::null(rng, 2 * number + part));
        }
        for part in 0..4 {
            made.push(theorems::text(rng, 4 * number + part, 3 * LONGEST));
        }
        for part in 0..2 {
            made.push(theorems::read_back(rng, 2 * number + part, 3 * LONGEST));
        }
        if number % 50 == 0 {
            made.push(theorems::program(rng, number, nodes, LONGEST));
        }
    }
    made
}

pub fn write(root: &Path, scratch: &Path, theorems: &[Theorem]) -> io::Result<()> {
    if scratch.exists() {
        fs::remove_dir_all(scratch)?;
    }
    let definition = scratch.join("crates/definition");
    for part in ["src", "specs"] {
        copy_folder(
            &root.join("crates/definition").join(part),
            &definition.join(part),
        )?;
    }
    let mut listed = String::from("definition:\n");
    let share = theorems.len().div_ceil(CRATES.len());
    for (name, part) in CRATES.iter().zip(theorems.chunks(share.max(1))) {
        write_crate(&scratch.join("crates").join(name), part)?;
        listed += &format!("{name}: definition\n");
    }
    fs::write(scratch.join("crates.txt"), listed)?;
    let cases: Vec<String> = theorems
        .iter()
        .map(|theorem| format!("{}: {}\n", theorem.name, theorem.case))
        .collect();
    fs::write(scratch.join("cases.txt"), cases.concat())
}

fn copy_folder(from: &Path, to: &Path) -> io::Result<()> {
    fs::create_dir_all(to)?;
    for entry in fs::read_dir(from)? {
        let entry = entry?;
        fs::copy(entry.path(), to.join(entry.file_name()))?;
    }
    Ok(())
}

/// A crate of theorems: modules of them, and no code.
fn write_crate(folder: &Path, theorems: &[Theorem]) -> io::Result<()> {
    fs::create_dir_all(folder.join("src"))?;
    fs::create_dir_all(folder.join("proofs"))?;
    fs::write(folder.join("src/lib.rt"), "// No code: theorems alone.\n")?;
    let mut modules = String::new();
    for (number, part) in theorems.chunks(MODULE).enumerate() {
        let text: Vec<&str> = part.iter().map(|t| t.text.as_str()).collect();
        modules += &format!("mod Part{number}\n");
        fs::write(
            folder.join(format!("proofs/Part{number}.antt")),
            antt::header().to_owned() + &text.concat(),
        )?;
    }
    fs::write(folder.join("proofs/Lib.antt"), modules)
}

/// The theorems that the toolchain refuses. Anything else that it says is a failure of the comparison itself.
pub fn check<'a>(scratch: &Path, theorems: &'a [Theorem]) -> Result<Vec<&'a Theorem>, String> {
    let run = Command::new("rt")
        .args(["all", "check"])
        .current_dir(scratch)
        .output()
        .map_err(|error| format!("rt cannot be run: {error}."))?;
    let mut said = String::from_utf8_lossy(&run.stdout).into_owned();
    said += &String::from_utf8_lossy(&run.stderr);
    let mut refused = BTreeSet::new();
    for line in said.lines() {
        let Some((_, rest)) = line.split_once(": error: `") else {
            continue;
        };
        refused.insert(rest.split('`').next().unwrap_or_default());
    }
    let differ: Vec<&Theorem> = theorems
        .iter()
        .filter(|theorem| refused.contains(theorem.name.as_str()))
        .collect();
    if run.status.success() != differ.is_empty() || refused.len() != differ.len() {
        return Err(format!("The check failed otherwise:\n{said}"));
    }
    Ok(differ)
}
