//! Compares the definitions with the Rust: `definitions ROOT SCRATCH SEED CASES`. The last line is `N compared, M differ`.

use oracle::scratch;
use std::path::Path;
use std::process::exit;

fn main() {
    let words: Vec<String> = std::env::args().skip(1).collect();
    let [root, folder, seed, cases] = &words[..] else {
        fail("usage: definitions ROOT SCRATCH SEED CASES");
    };
    let (Ok(seed), Ok(cases)) = (seed.parse(), cases.parse()) else {
        fail("SEED and CASES are numbers.");
    };
    let theorems = scratch::draw(seed, cases);
    let folder = Path::new(folder);
    if let Err(error) = scratch::write(Path::new(root), folder, &theorems) {
        fail(&format!(
            "The scratch repository cannot be written: {error}."
        ));
    }
    let differ = scratch::check(folder, &theorems).unwrap_or_else(|why| fail(&why));
    for theorem in &differ {
        println!("differs: {}: {}", theorem.name, theorem.case);
    }
    let trees = theorems.iter().filter(|theorem| theorem.nodes > 0);
    let nodes: usize = trees.clone().map(|theorem| theorem.nodes).sum();
    println!("{} decks were read, of {nodes} nodes", trees.count());
    let compared: usize = theorems.iter().map(|theorem| theorem.compared).sum();
    println!("{compared} compared, {} differ", differ.len());
    exit(i32::from(!differ.is_empty()));
}

fn fail(why: &str) -> ! {
    eprintln!("{why}");
    exit(2)
}
