//! Requests and replays: random walks over every policy, damaged words, every refusal, long traces, and every order of few pages.

use crate::codec::encode;
use crate::model::Directory;
use crate::random::{page_pool, settings_at, sound_directory, trace_over, Random};
use crate::settings::{Policy, NONE};

use super::asking::{ask, replay};
use super::bench::Bench;
use super::orders;
use super::shapes::Shape;
use super::stock::{chosen_traces, garbage, reached_directory, CAPACITIES, LONG_CAPACITIES};

/// Random sound directories of each policy and small capacity, for each unit of scale.
const ROUNDS: usize = 60;

/// Requests of a walk through a small directory.
const STEPS: usize = 60;

/// Damaged directories of each policy for each unit of scale.
const DAMAGED: usize = 600;

/// Compares pd_request and pd_replay.
pub fn run(bench: &mut Bench, random: &mut Random, scale: usize) {
    orders::run(bench, random, orders::FEW);
    for policy in Policy::ALL {
        for capacity in CAPACITIES {
            for _ in 0..rounds(capacity, scale) {
                walk(bench, random, policy, capacity);
            }
        }
        for _ in 0..DAMAGED * scale {
            damaged(bench, random, policy);
        }
        refusals(bench, random, policy);
    }
    orders::run(bench, random, orders::MANY);
    for policy in Policy::ALL {
        long(bench, random, policy);
    }
}

/// How many walks are made at a capacity.
fn rounds(capacity: u32, scale: usize) -> usize {
    match capacity {
        0..=8 => ROUNDS * scale,
        9..=100 => 6 * scale,
        _ => 2 * scale,
    }
}

/// Requests in turn on a sound directory, and the same trace as a replay.
fn walk(bench: &mut Bench, random: &mut Random, policy: Policy, capacity: u32) {
    if bench.is_done() {
        return;
    }
    let settings = settings_at(random, policy, capacity);
    let large_pages = random.one_in(2);
    let pool = page_pool(random, settings.entries() + 2, large_pages);
    let start = match random.below(3) {
        0 => Directory::fresh(settings),
        1 => reached_directory(random, settings, &pool),
        _ => sound_directory(random, settings, &pool),
    };
    let trace = trace_over(random, &pool, STEPS);
    let start = encode(&start);
    replay(bench, random, "a walk", &start, &trace);
    let mut words = start;
    for page in trace {
        let Some(after) = ask(bench, random, "a walk", &words, page) else {
            return;
        };
        words = after;
    }
}

/// Changed words, whose requests are mostly refused.
fn damaged(bench: &mut Bench, random: &mut Random, policy: Policy) {
    let capacity = random.between(1, 4);
    let settings = settings_at(random, policy, capacity);
    let pool = page_pool(random, settings.entries() + 1, false);
    let mut words = encode(&sound_directory(random, settings, &pool));
    for _ in 0..random.between(1, 2) {
        let place = random.below(words.len());
        words[place] = match random.below(3) {
            0 => random.pick(&words),
            1 => NONE,
            _ => random.below(6) as u32,
        };
    }
    let page = random.pick(&pool);
    ask(bench, random, "changed words", &words, page);
    ask(bench, random, "changed words", &words, NONE);
    let trace = trace_over(random, &pool, 8);
    replay(bench, random, "changed words", &words, &trace);
}

/// Every refusal alone, and each pair of them.
fn refusals(bench: &mut Bench, random: &mut Random, policy: Policy) {
    let settings = settings_at(random, policy, 3);
    let sound = encode(&Directory::fresh(settings));
    let unsound = garbage(random, sound.len());
    let shorter = &sound[..sound.len() - 1];
    let traces = chosen_traces(random);
    for words in [&sound[..], &unsound, shorter, &[]] {
        for page in [0, NONE - 1, NONE] {
            ask(bench, random, "a refusal", words, page);
        }
        for trace in &traces {
            replay(bench, random, "a refusal", words, trace);
        }
    }
}

/// Long replays of every shape.
fn long(bench: &mut Bench, random: &mut Random, policy: Policy) {
    for capacity in LONG_CAPACITIES {
        for shape in Shape::ALL {
            if bench.is_done() {
                return;
            }
            let settings = settings_at(random, policy, capacity);
            let words = encode(&Directory::fresh(settings));
            let trace = shape.trace(random, capacity);
            replay(bench, random, shape.name(), &words, &trace);
        }
    }
}
