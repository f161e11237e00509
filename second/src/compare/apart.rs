//! The curve of a long trace, with an LRU of its own for each capacity: nothing is inferred from one capacity about another.

use std::collections::HashMap;

use crate::refusal::Refusal;
use crate::settings::{LARGEST_CAPACITY, LONGEST, NONE};

/// Requests of a short trace times capacities, at most.
pub const SHORT: usize = 40_000;

/// The last request of a page that is not held.
const NEVER: usize = usize::MAX;

/// Whether the model, which has a directory for each capacity, would be slow.
pub fn is_long(largest: u32, trace: &[u32]) -> bool {
    largest as usize * trace.len() > SHORT
}

/// The hits at each capacity, and the list at the largest.
pub fn curve(
    largest: u32,
    trace: &[u32],
    result: &mut [u32],
    work: &mut [u32],
) -> Result<(), Refusal> {
    let count = largest as usize;
    check(largest, trace, result.len().min(work.len()))?;
    let (numbers, pages) = numbered(trace);
    for capacity in 1..=count {
        let (hits, last) = simulated(capacity, &numbers, pages);
        result[capacity - 1] = hits;
        if capacity == count {
            work[..count].copy_from_slice(&listed(trace, last, count));
        }
    }
    Ok(())
}

/// The refusals, in their order.
fn check(largest: u32, trace: &[u32], room: usize) -> Result<(), Refusal> {
    if !(1..=LARGEST_CAPACITY).contains(&largest) {
        return Err(Refusal::CapacityRange);
    }
    if trace.len() > LONGEST {
        return Err(Refusal::TooLong);
    }
    if trace.contains(&NONE) {
        return Err(Refusal::NotAPage);
    }
    if room < largest as usize {
        return Err(Refusal::BufferTooShort);
    }
    Ok(())
}

/// The trace with its pages numbered from 0 as they first come, and how many there are.
fn numbered(trace: &[u32]) -> (Vec<usize>, usize) {
    let mut numbers = HashMap::new();
    let mut number_of = |page| {
        let next = numbers.len();
        *numbers.entry(page).or_insert(next)
    };
    let trace = trace.iter().map(|page| number_of(*page)).collect();
    (trace, numbers.len())
}

/// The hits at one capacity, and where in the trace each page held was last asked for: who waits longest since then is put out.
fn simulated(capacity: usize, trace: &[usize], pages: usize) -> (u32, Vec<usize>) {
    let mut last = vec![NEVER; pages];
    let (mut hits, mut held, mut oldest) = (0, 0, 0);
    for (place, page) in trace.iter().enumerate() {
        if last[*page] != NEVER {
            hits += 1;
        } else if held < capacity {
            held += 1;
        } else {
            while last[trace[oldest]] != oldest {
                oldest += 1;
            }
            last[trace[oldest]] = NEVER;
        }
        last[*page] = place;
    }
    (hits, last)
}

/// The pages held, last asked for first, then NONE.
fn listed(trace: &[u32], mut last: Vec<usize>, count: usize) -> Vec<u32> {
    last.retain(|place| *place != NEVER);
    last.sort_unstable_by(|one, other| other.cmp(one));
    let mut pages: Vec<u32> = last.into_iter().map(|place| trace[place]).collect();
    pages.resize(count, NONE);
    pages
}
