//! Compares the static library with the second program, call by call.

mod audit;
#[allow(dead_code)]
mod calls;
mod codec;
mod command;
mod compare;
mod draft;
mod model;
mod pagedir;
mod policies;
mod random;
mod refusal;
mod settings;
mod text;
mod view;

use std::process::ExitCode;

/// How the program is called.
const USAGE: &str =
    "usage: compare [--seed N] [--scale N] [--stop] [--call NAME] [--slip N | --slips]";

/// Runs the comparison that the arguments ask for.
fn main() -> ExitCode {
    command::run_plan(USAGE, compare::Plan::from_arguments, compare::run)
}
