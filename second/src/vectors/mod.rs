//! Generated files for the proof checker: traces with their answers, and damages with the rules they break.

mod antt;
mod damages;
mod traces;

use std::fs;
use std::io;
use std::path::Path;

use crate::random::Random;
use antt::{damage_file, trace_file, DAMAGED, LENGTHENED};

/// The seed used when none is given.
pub const DEFAULT_SEED: u64 = 1_970;

/// Traces in one file.
const TRACES_A_FILE: usize = 10;

/// Damaged directories in one file.
const DIRECTORIES_A_FILE: usize = 4;

/// Writes all files into a folder and prints what was written.
pub fn write_all(folder: &Path, seed: u64) -> io::Result<()> {
    fs::create_dir_all(folder)?;
    let mut random = Random::new(seed);
    write_traces(folder, &mut random)?;
    write_damages(folder, &mut random)
}

/// Writes the files of traces.
fn write_traces(folder: &Path, random: &mut Random) -> io::Result<()> {
    let vectors = traces::generate(random);
    for (index, chunk) in vectors.chunks(TRACES_A_FILE).enumerate() {
        fs::write(
            folder.join(format!("Requests{}.antt", index + 1)),
            trace_file(chunk),
        )?;
    }
    println!("{}", traces::summary(&vectors));
    Ok(())
}

/// Writes the files of damages, the directories of a wrong length in the last one.
fn write_damages(folder: &Path, random: &mut Random) -> io::Result<()> {
    let vectors = damages::generate(random);
    let mut files: Vec<String> = vectors
        .chunks(DIRECTORIES_A_FILE)
        .map(|chunk| damage_file(DAMAGED, chunk))
        .collect();
    let misfits = damages::generate_misfits(random);
    files.push(damage_file(LENGTHENED, &misfits));
    for (index, file) in files.iter().enumerate() {
        fs::write(folder.join(format!("Damages{}.antt", index + 1)), file)?;
    }
    println!("{}", damages::summary("damages", &vectors));
    println!(
        "{}",
        damages::summary("damages of a wrong length", &misfits)
    );
    Ok(())
}
