//! Messages of other implementations, whole and with small edits.

use super::compare::Run;
use super::messages::mutate;
use super::rng::Rng;
use std::path::{Path, PathBuf};
use std::{fs, io};

const SEED: u64 = 7;
const EDITED: u64 = 500;

pub fn run(run: &mut Run, folder: &Path) -> io::Result<()> {
    let files = files(folder)?;
    println!("{} captures, each with {EDITED} edited copies, seed {SEED}", files.len());
    for (i, file) in files.iter().enumerate() {
        let bytes = fs::read(file)?;
        let mut rng = Rng::of_case(SEED, i as u64);
        run.name(format!("{}", file.display()));
        run.message_whole(&mut rng, &bytes);
        for copy in 0..EDITED {
            let mut edited = bytes.clone();
            mutate(&mut rng, &mut edited);
            run.name(format!("{}, edited copy {copy}", file.display()));
            run.message(&mut rng, &edited, copy % 10 == 0);
            run.index(&mut rng, &edited);
            if run.over() {
                return Ok(());
            }
        }
    }
    Ok(())
}

/// The folder's files *.bin by name.
fn files(folder: &Path) -> io::Result<Vec<PathBuf>> {
    let mut files = Vec::new();
    for entry in fs::read_dir(folder)? {
        let path = entry?.path();
        if path.extension().is_some_and(|end| end == "bin") {
            files.push(path);
        }
    }
    files.sort();
    Ok(files)
}
