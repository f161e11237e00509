//! Runs the replay program on texts and compares the five lines it writes, byte by byte.

mod audit;
#[allow(dead_code)]
mod calls;
mod codec;
mod command;
mod draft;
mod model;
mod policies;
mod program;
#[allow(dead_code)]
mod random;
mod refusal;
mod runs;
mod settings;
#[allow(dead_code)]
mod text;
mod view;

use std::process::ExitCode;

/// How the program is called.
const USAGE: &str = "usage: program_runs PROGRAM [--texts N] [--seed N]";

/// Makes the runs that the arguments ask for.
fn main() -> ExitCode {
    command::run_plan(USAGE, runs::Plan::from_arguments, run)
}

/// Makes the runs of a plan and says whether all went well.
fn run(plan: &runs::Plan) -> bool {
    runs::run(plan).unwrap_or_else(|error| command::fail(&format!("{}: {error}", plan.program)))
}
