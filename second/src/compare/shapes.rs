//! Long traces in four shapes, made for a capacity.

use crate::random::Random;

/// Requests of a trace.
const LENGTH: usize = 60_000;

/// Requests of one phase.
const PHASE: usize = 3_000;

/// The shapes.
#[derive(Clone, Copy, Debug)]
pub enum Shape {
    /// Few pages often and many seldom: a page's share falls with its rank.
    Zipf,
    /// A few pages more than the capacity, round and round.
    Loop,
    /// Usual pages, and now and then a run of pages that never come again.
    Scan,
    /// Usual pages that change from phase to phase and come back later.
    Phases,
}

impl Shape {
    /// All shapes.
    pub const ALL: [Shape; 4] = [Shape::Zipf, Shape::Loop, Shape::Scan, Shape::Phases];

    /// What a comparison on the shape is called.
    pub fn name(self) -> &'static str {
        match self {
            Shape::Zipf => "a long zipf",
            Shape::Loop => "a long loop",
            Shape::Scan => "a long scan",
            Shape::Phases => "long phases",
        }
    }

    /// A trace of the shape for a capacity.
    pub fn trace(self, random: &mut Random, capacity: u32) -> Vec<u32> {
        match self {
            Shape::Zipf => zipf(random, 6 * capacity),
            Shape::Loop => round(random, capacity + capacity / 16 + 1),
            Shape::Scan => scan(random, capacity),
            Shape::Phases => phases(random, capacity),
        }
    }
}

/// Pages drawn so that the share of each is that of the first over its rank.
fn zipf(random: &mut Random, pages: u32) -> Vec<u32> {
    let mut ends = Vec::new();
    let mut end = 0;
    for rank in 1..=pages as usize {
        end += 1_000_000 / rank;
        ends.push(end);
    }
    let draw = |_| {
        let point = random.below(end);
        ends.partition_point(|last| *last <= point) as u32
    };
    (0..LENGTH).map(draw).collect()
}

/// The pages round and round, and another one now and then.
fn round(random: &mut Random, pages: u32) -> Vec<u32> {
    let page_at = |place| {
        if random.one_in(40) {
            random.between(0, 2 * pages)
        } else {
            place as u32 % pages
        }
    };
    (0..LENGTH).map(page_at).collect()
}

/// Usual pages, half as many as the capacity, and runs of new pages.
fn scan(random: &mut Random, capacity: u32) -> Vec<u32> {
    let usual = capacity / 2 + 1;
    let mut trace = Vec::with_capacity(LENGTH);
    let mut next_new = usual;
    while trace.len() < LENGTH {
        if random.one_in(4 * capacity as usize) {
            let run = random.between(1, 2 * capacity);
            trace.extend(next_new..next_new + run);
            next_new += run;
        } else {
            trace.push(random.between(0, usual - 1));
        }
    }
    trace.truncate(LENGTH);
    trace
}

/// Four sets of pages, one for each phase in turn, which overlap at their ends.
fn phases(random: &mut Random, capacity: u32) -> Vec<u32> {
    let page_at = |place| {
        let set = (place / PHASE) as u32 % 4;
        set * capacity + random.between(0, capacity + capacity / 4)
    };
    (0..LENGTH).map(page_at).collect()
}
