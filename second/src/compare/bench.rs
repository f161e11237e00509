//! Makes each comparison, counts it, and keeps the first differences.

use std::collections::BTreeMap;
use std::panic::catch_unwind;

use super::call::{Call, Seen};
use super::expected::Expected;
use super::library::Library;
use super::side::Side;
use super::slips::Slip;

/// How many differences are told in full.
const TOLD: usize = 10;

/// How many words of a lent stretch are told.
const SHOWN: usize = 4;

/// The comparisons made and the differences found.
pub struct Bench {
    slip: Option<&'static Slip>,
    stops: bool,
    /// How often each call returned which number.
    counts: BTreeMap<&'static str, BTreeMap<u32, u64>>,
    differences: u64,
    told: Vec<String>,
}

impl Bench {
    /// A bench whose model may have a slip, and which may stop at the first difference.
    pub fn new(slip: Option<&'static Slip>, stops: bool) -> Bench {
        Bench {
            slip,
            stops,
            counts: BTreeMap::new(),
            differences: 0,
            told: Vec::new(),
        }
    }

    /// Whether nothing more is to be compared.
    pub fn is_done(&self) -> bool {
        self.stops && self.differences > 0
    }

    /// Makes a call of both, compares what C sees and gives what it saw; `what` says where the call comes from.
    pub fn compare(&mut self, what: &str, call: &Call) -> Option<Seen> {
        if self.is_done() {
            return None;
        }
        let seen = Library::seen(call);
        self.count(call.name(), seen.code as u32);
        let Ok(mut expected) = catch_unwind(|| Expected::seen(call)) else {
            self.differ(format!("{} on {what}: the model stops", call.name()));
            return Some(seen);
        };
        if let Some(slip) = self.slip.filter(|slip| slip.call == call.name()) {
            (slip.alter)(call, &mut expected);
        }
        if seen != expected {
            self.differ(format!(
                "{} on {what}: {}",
                call.name(),
                difference(&seen, &expected)
            ));
        }
        Some(seen)
    }

    /// Counts a comparison of some words that the library left.
    pub fn compare_words(
        &mut self,
        name: &'static str,
        what: &str,
        seen: &[u32],
        expected: &[u32],
    ) {
        if self.is_done() {
            return;
        }
        self.count(name, 0);
        if seen != expected {
            self.differ(format!(
                "{name} on {what}: saw {seen:?}, expected {expected:?}"
            ));
        }
    }

    /// Counts one answer of a call.
    fn count(&mut self, name: &'static str, number: u32) {
        *self
            .counts
            .entry(name)
            .or_default()
            .entry(number)
            .or_default() += 1;
    }

    /// Counts a difference and keeps it if it is among the first.
    fn differ(&mut self, told: String) {
        self.differences += 1;
        if self.told.len() < TOLD {
            self.told.push(told);
        }
    }

    /// What was compared when the first difference showed.
    pub fn first_difference(&self) -> Option<&str> {
        self.told.first().map(String::as_str)
    }

    /// The numbers that a call may return and never did, none if the comparison was cut short.
    fn unseen(&self) -> Vec<String> {
        let mut unseen = Vec::new();
        if self.is_done() {
            return unseen;
        }
        for (name, numbers) in &self.counts {
            for number in Call::numbers(name) {
                if !numbers.contains_key(number) {
                    unseen.push(format!("{name} never returned {number}"));
                }
            }
        }
        unseen
    }

    /// Whether there was no difference and every call returned each of its numbers.
    pub fn passed(&self) -> bool {
        self.differences == 0 && self.unseen().is_empty()
    }

    /// Prints the counts, what is amiss, and the verdict.
    pub fn print(&self) {
        let mut total = 0;
        for (name, numbers) in &self.counts {
            let count: u64 = numbers.values().sum();
            total += count;
            println!("{name}: {count} comparisons, by number returned {numbers:?}");
        }
        for told in self.told.iter().chain(&self.unseen()) {
            println!("  {told}");
        }
        println!("{total} comparisons, {} differences", self.differences);
    }
}

/// Where two sights of a call differ first.
fn difference(seen: &Seen, expected: &Seen) -> String {
    if seen.code != expected.code {
        return format!("returned {:#x}, expected {:#x}", seen.code, expected.code);
    }
    if seen.guarded != expected.guarded {
        return "memory around a lent stretch was touched".to_string();
    }
    let stretches = seen.lent.iter().zip(&expected.lent).enumerate();
    for (number, (saw, wanted)) in stretches {
        let place = saw.iter().zip(wanted).position(|(a, b)| a != b);
        if let Some(place) = place {
            return format!(
                "stretch {number}, word {place}: saw {:?}, expected {:?}",
                &saw[place..saw.len().min(place + SHOWN)],
                &wanted[place..wanted.len().min(place + SHOWN)]
            );
        }
    }
    "another number of words".to_string()
}
