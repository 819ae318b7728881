//! Which files of a recipe changed, and their bytes: `engines FOLDER`. For each correction the changed files, and only these, are written into a
//! folder of its name below FOLDER.

mod recipe;
mod writing;

use oracle::archive;
use oracle::calls::Call;
use recipe::{corrected, CORRECTIONS, FILES};
use std::path::Path;
use std::{env, fs, io, process};

fn main() {
    let Some(folder) = env::args().nth(1) else {
        fail("usage: engines FOLDER");
    };
    for call in [
        Call::EmitRoundtrip,
        Call::LocalModified,
        Call::CollectChangedIncludeChanges,
    ] {
        if !archive::has(&call) {
            fail(&format!(
                "No archive is linked that has {}.",
                archive::name(&call)
            ));
        }
    }
    for correction in &CORRECTIONS {
        let files = writing::changed_files(&corrected(correction), archive::outcome);
        println!("{}:", correction.name);
        for name in FILES {
            match files.iter().find(|(changed, _)| *changed == name) {
                Some((_, bytes)) => println!("  {name}: changed, {} bytes", bytes.len()),
                None => println!("  {name}: not changed"),
            }
        }
        for (name, bytes) in &files {
            let path = Path::new(&folder).join(correction.name).join(name);
            if let Err(error) = write(&path, bytes) {
                fail(&format!("{} cannot be written: {error}.", path.display()));
            }
        }
    }
}

fn write(path: &Path, bytes: &[u8]) -> io::Result<()> {
    fs::create_dir_all(path.parent().expect("a file has a folder"))?;
    fs::write(path, bytes)
}

fn fail(why: &str) -> ! {
    eprintln!("{why}");
    process::exit(2)
}
