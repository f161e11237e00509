//! How a program takes its arguments, tells what is wrong, and ends.

use std::env;
use std::process::ExitCode;

/// The arguments after the program's name.
pub fn arguments() -> Vec<String> {
    env::args().skip(1).collect()
}

/// Runs the plan that the arguments name, or tells how the program is called.
pub fn run_plan<P>(
    usage: &str,
    plan_of: fn(&[String]) -> Option<P>,
    run: fn(&P) -> bool,
) -> ExitCode {
    exit_code(plan_of(&arguments()).map_or_else(|| fail(usage), |plan| run(&plan)))
}

/// How the program ends.
pub fn exit_code(succeeded: bool) -> ExitCode {
    if succeeded {
        ExitCode::SUCCESS
    } else {
        ExitCode::FAILURE
    }
}

/// Tells what is wrong.
pub fn fail(message: &str) -> bool {
    eprintln!("{message}");
    false
}
