//! What several parts of the comparison draw on: capacities, words of any kind, traces and directories.

use crate::model::Directory;
use crate::policies;
use crate::random::{page_pool, trace_over, Random};
use crate::settings::{Settings, LONGEST, NONE};

/// Capacities that are compared with every policy.
pub const CAPACITIES: [u32; 8] = [1, 2, 3, 7, 8, 64, 511, 512];

/// Capacities of the long traces.
pub const LONG_CAPACITIES: [u32; 2] = [64, 512];

/// Words of any kind.
pub fn garbage(random: &mut Random, length: usize) -> Vec<u32> {
    (0..length)
        .map(|_| match random.below(4) {
            0 => NONE,
            1 => random.below(10) as u32,
            _ => random.next() as u32,
        })
        .collect()
}

/// The directory after some requests of a fresh one.
pub fn reached_directory(random: &mut Random, settings: Settings, pool: &[u32]) -> Directory {
    let mut directory = Directory::fresh(settings);
    let length = random.below(4 * settings.capacity as usize + 4);
    for page in trace_over(random, pool, length) {
        policies::request(&mut directory, page);
    }
    directory
}

/// Traces that are empty, plain, with NONE at the front, inside or at the back, longest, and too long without and with NONE.
pub fn chosen_traces(random: &mut Random) -> [Vec<u32>; 8] {
    let pool = page_pool(random, 10, false);
    let plain = trace_over(random, &pool, 30);
    let longest = trace_over(random, &pool, LONGEST);
    let too_long = trace_over(random, &pool, LONGEST + 1);
    [
        Vec::new(),
        with_none(&plain, 0),
        with_none(&plain, 15),
        with_none(&plain, 29),
        plain,
        longest,
        with_none(&too_long, 7),
        too_long,
    ]
}

/// The trace with NONE at a place.
fn with_none(trace: &[u32], place: usize) -> Vec<u32> {
    let mut trace = trace.to_vec();
    trace[place] = NONE;
    trace
}
