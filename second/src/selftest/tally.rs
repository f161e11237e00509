//! Counting of checks, and the first failures.

use std::fmt::Debug;

/// How many failures are told in full.
const TOLD: usize = 10;

/// Checks made and failures seen.
#[derive(Default)]
pub struct Tally {
    checks: u64,
    failed: u64,
    told: Vec<String>,
}

impl Tally {
    /// The number of checks made.
    pub fn checks(&self) -> u64 {
        self.checks
    }

    /// The number of checks that failed.
    pub fn failed(&self) -> u64 {
        self.failed
    }

    /// Counts a check, which fails with the given message.
    pub fn check(&mut self, holds: bool, message: impl FnOnce() -> String) {
        self.checks += 1;
        if !holds {
            self.failed += 1;
            if self.told.len() < TOLD {
                self.told.push(message());
            }
        }
    }

    /// Counts a check that two values are equal.
    pub fn equal<T: PartialEq + Debug>(&mut self, what: &str, seen: T, expected: T) {
        let holds = seen == expected;
        self.check(holds, || {
            format!("{what}: saw {seen:?}, expected {expected:?}")
        });
    }

    /// Prints the first failures.
    pub fn print_failures(&self) {
        for message in &self.told {
            println!("  failed: {message}");
        }
    }
}
