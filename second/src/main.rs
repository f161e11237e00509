//! The second program for the page directory: its self-test, the vectors for the proof checker, and its replay of a trace text.

mod audit;
mod calls;
mod codec;
#[allow(dead_code)]
mod command;
mod judge;
mod model;
mod policies;
mod program;
mod random;
mod refusal;
mod selftest;
mod settings;
mod text;
mod vectors;
mod view;

use std::io::{self, Read, Write};
use std::path::Path;
use std::process::ExitCode;

use command::fail;

/// How the program is called.
const USAGE: &str = "usage: second self-test | second vectors DIR [SEED] | second replay < TEXT";

/// Runs the command that the arguments name.
fn main() -> ExitCode {
    let arguments = command::arguments();
    let words: Vec<&str> = arguments.iter().map(String::as_str).collect();
    let succeeded = match words[..] {
        ["self-test"] => selftest::run(),
        ["vectors", folder] => write_vectors(folder, vectors::DEFAULT_SEED),
        ["vectors", folder, seed] => seed
            .parse()
            .map_or_else(|_| fail(USAGE), |seed| write_vectors(folder, seed)),
        ["replay"] => replay_input().map_or_else(|error| fail(&error.to_string()), |()| true),
        _ => fail(USAGE),
    };
    command::exit_code(succeeded)
}

/// Writes the vectors and says whether that went well.
fn write_vectors(folder: &str, seed: u64) -> bool {
    vectors::write_all(Path::new(folder), seed)
        .map_or_else(|error| fail(&error.to_string()), |()| true)
}

/// Runs the replay program over standard input.
fn replay_input() -> io::Result<()> {
    let mut input = Vec::new();
    io::stdin().read_to_end(&mut input)?;
    io::stdout().write_all(program::run(&input).as_bytes())
}
