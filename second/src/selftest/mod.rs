//! The self-test: the document's examples, refusals, and many random runs.

mod bench;
mod damages;
mod refusals;
mod steps;
mod tally;
mod texts;
mod walks;

use crate::random::Random;
use tally::Tally;

/// The seed of the self-test's random runs.
const SEED: u64 = 20_240_601;

/// One part of the self-test: gives a short summary of what it did.
type Part = fn(&mut Tally, &mut Random) -> String;

/// Runs the whole self-test, prints a summary, and says whether nothing failed.
pub fn run() -> bool {
    let parts: [(&str, Part); 6] = [
        ("bench sheet", bench::run),
        ("single steps", steps::run),
        ("refusals", refusals::run),
        ("random requests", walks::run),
        ("damages", damages::run),
        ("trace texts", texts::run),
    ];
    let mut random = Random::new(SEED);
    let mut passed = true;
    for (name, part) in parts {
        let mut tally = Tally::default();
        let summary = part(&mut tally, &mut random);
        println!(
            "{name}: {summary}; {} checks, {} failed",
            tally.checks(),
            tally.failed()
        );
        tally.print_failures();
        passed &= tally.failed() == 0;
    }
    println!(
        "{}",
        if passed {
            "self-test passed"
        } else {
            "self-test FAILED"
        }
    );
    passed
}
