//! The curve: short traces against the model's directories, long ones against an LRU for each capacity and, at some capacities, against the model's directories.

use crate::calls::{form, replay, report, words_for};
use crate::random::{page_pool, trace_over, Random};
use crate::settings::{LARGEST_CAPACITY, LONGEST, NONE};

use super::apart::SHORT;
use super::bench::Bench;
use super::call::{Call, Curve, Seen};
use super::shapes::Shape;
use super::stock::{chosen_traces, garbage, CAPACITIES, LONG_CAPACITIES};

/// Pages of a long trace.
const LONG: usize = 60_000;

/// Short traces for each unit of scale.
const SHORT_TRACES: usize = 10_000;

/// Compares pd_curve.
pub fn run(bench: &mut Bench, random: &mut Random, scale: usize) {
    refusals(bench, random);
    for _ in 0..SHORT_TRACES * scale {
        short(bench, random);
    }
    for round in 0..2 * scale {
        long(bench, random, round % 2 == 0);
    }
    for capacity in LONG_CAPACITIES {
        shapes(bench, random, capacity);
    }
    longest(bench, random);
}

/// A trace over a pool of random size.
fn trace(random: &mut Random, length: usize, most_pages: usize) -> Vec<u32> {
    let large = random.one_in(2);
    let pages = 1 + random.below(most_pages);
    let pool = page_pool(random, pages, large);
    trace_over(random, &pool, length)
}

/// Compares one curve, with buffers that are longer by the given words, and gives what was seen.
fn curve(
    bench: &mut Bench,
    random: &mut Random,
    what: &str,
    of: (u32, &[u32]),
    more: [usize; 2],
) -> Option<Seen> {
    let (largest, trace) = of;
    let needed = largest.min(LARGEST_CAPACITY + 1) as usize;
    let result = garbage(random, needed + more[0]);
    let work = garbage(random, needed + more[1]);
    bench.compare(
        what,
        &Call::Curve(Curve {
            largest,
            trace,
            result: &result,
            work: &work,
        }),
    )
}

/// A short trace, with buffers that are exact or longer.
fn short(bench: &mut Bench, random: &mut Random) {
    let largest = if random.one_in(3) {
        random.pick(&CAPACITIES)
    } else {
        random.between(1, 12)
    };
    let length = random.below((SHORT / largest as usize).min(120));
    let trace = trace(random, length, 20);
    let more = [random.below(4), random.below(4)];
    curve(bench, random, "a short trace", (largest, &trace), more);
}

/// Every refusal alone, and each pair of them.
fn refusals(bench: &mut Bench, random: &mut Random) {
    let traces = chosen_traces(random);
    for largest in [0, 1, 5, 512, 513, NONE] {
        let needed = largest.min(LARGEST_CAPACITY + 1) as usize;
        let short = needed.saturating_sub(1);
        for (room, places) in [
            (needed, needed),
            (short, needed),
            (needed, short),
            (short, short),
            (0, 0),
        ] {
            for trace in &traces {
                let (result, work) = (garbage(random, room), garbage(random, places));
                bench.compare(
                    "a refusal",
                    &Call::Curve(Curve {
                        largest,
                        trace,
                        result: &result,
                        work: &work,
                    }),
                );
            }
        }
    }
}

/// A long trace of every shape.
fn shapes(bench: &mut Bench, random: &mut Random, capacity: u32) {
    for shape in Shape::ALL {
        if bench.is_done() {
            return;
        }
        let trace = shape.trace(random, capacity);
        whole_and_parts(bench, random, shape.name(), (capacity, &trace));
    }
}

/// A long trace of random pages at capacity 512.
fn long(bench: &mut Bench, random: &mut Random, near: bool) {
    if bench.is_done() {
        return;
    }
    let trace = trace(random, LONG, if near { 700 } else { 3_000 });
    let of = (LARGEST_CAPACITY, &trace[..]);
    whole_and_parts(bench, random, "a long trace", of);
}

/// A long trace, also against the model's directories of some capacities.
fn whole_and_parts(bench: &mut Bench, random: &mut Random, what: &str, of: (u32, &[u32])) {
    let (largest, trace) = of;
    let Some(seen) = curve(bench, random, what, of, [0, 3]) else {
        return;
    };
    let what = format!("{what} at one capacity");
    for capacity in CAPACITIES.into_iter().filter(|one| *one <= largest) {
        let (hits, pages) = lru(capacity, trace);
        let place = capacity as usize - 1;
        bench.compare_words("pd_curve", &what, &seen.lent[1][place..=place], &[hits]);
        let front = &seen.lent[2][..pages.len()];
        bench.compare_words("pd_curve", &what, front, &pages);
    }
}

/// The longest trace, and one page more.
fn longest(bench: &mut Bench, random: &mut Random) {
    let trace = trace(random, LONGEST + 1, 40);
    let exact = &trace[..LONGEST];
    curve(bench, random, "the longest trace", (8, exact), [1, 0]);
    curve(bench, random, "a page too many", (8, &trace), [0, 1]);
}

/// The hits and the last list of an LRU directory of the model.
fn lru(capacity: u32, trace: &[u32]) -> (u32, Vec<u32>) {
    let length = words_for(1, capacity, 0, 0).expect("a capacity in its range");
    let mut words = vec![0; length as usize];
    form(1, capacity, 0, 0, &mut words).expect("words of the exact length");
    let counts = replay(&mut words, trace).expect("a trace of pages");
    let mut pages = vec![0; capacity as usize];
    let count = report(&words, 1, &mut pages).expect("a list of LRU");
    pages.truncate(count as usize);
    (counts.hits, pages)
}
