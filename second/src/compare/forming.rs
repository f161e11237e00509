//! Settings of all kinds: the length that form asks, and form over garbage of right and wrong lengths.

use crate::calls::words_for;
use crate::random::{settings_at, Random};
use crate::settings::{Policy, NONE};

use super::bench::Bench;
use super::call::{Call, Form, Words};
use super::stock::{garbage, CAPACITIES};

/// Capacities at and past the ends of the range.
const EDGES: [u32; 8] = [0, 4, 63, 65, 510, 513, 1024, NONE];

/// Right settings of each policy and capacity for each unit of scale.
const RIGHT_SETTINGS: usize = 30;

/// Random settings for each unit of scale.
const RANDOM_SETTINGS: usize = 20_000;

/// Compares pd_words and pd_form.
pub fn run(bench: &mut Bench, random: &mut Random, scale: usize) {
    for policy in (0..=6).chain([NONE, 1 << 31]) {
        for capacity in CAPACITIES.into_iter().chain(EDGES) {
            settings_of(bench, random, policy, capacity);
        }
    }
    for policy in Policy::ALL {
        for capacity in CAPACITIES {
            for _ in 0..RIGHT_SETTINGS * scale {
                let settings = settings_at(random, policy, capacity);
                form_lengths(bench, random, settings.numbers());
            }
        }
    }
    for _ in 0..RANDOM_SETTINGS * scale {
        let settings = random_settings(random);
        words(bench, random, settings);
        if random.one_in(8) {
            form_lengths(bench, random, settings);
        }
    }
}

/// First and second settings around the ends of their ranges.
fn settings_of(bench: &mut Bench, random: &mut Random, policy: u32, capacity: u32) {
    let around = [
        0,
        1,
        2,
        capacity.wrapping_sub(1),
        capacity,
        capacity.wrapping_add(1),
        NONE,
    ];
    for first in around {
        for second in around {
            let settings = [policy, capacity, first, second];
            words(bench, random, settings);
            form_lengths(bench, random, settings);
        }
    }
}

/// Settings that are often right and sometimes anything.
fn random_settings(random: &mut Random) -> [u32; 4] {
    let capacity = if random.one_in(4) {
        random.between(500, 520)
    } else {
        random.between(0, 40)
    };
    let near = |random: &mut Random| match random.below(5) {
        0 => 0,
        1 => capacity.wrapping_add(random.between(0, 2)).wrapping_sub(1),
        2 => random.next() as u32,
        _ => random.between(0, capacity),
    };
    let (first, second) = (near(random), near(random));
    [random.between(0, 6), capacity, first, second]
}

/// Compares the length that form asks.
fn words(bench: &mut Bench, random: &mut Random, settings: [u32; 4]) {
    let answer = [random.next() as u32];
    bench.compare("settings", &Call::Words(Words { settings, answer }));
}

/// Compares form on garbage of the exact length, of lengths near it, and of none.
fn form_lengths(bench: &mut Bench, random: &mut Random, settings: [u32; 4]) {
    let [policy, capacity, first, second] = settings;
    let exact = words_for(policy, capacity, first, second).unwrap_or(random.between(0, 60));
    for length in [exact, exact + 1, exact.saturating_sub(1), 0, exact + 8] {
        let words = garbage(random, length as usize);
        let what = if length == exact {
            "the exact length"
        } else {
            "another length"
        };
        bench.compare(
            what,
            &Call::Form(Form {
                settings,
                words: &words,
            }),
        );
    }
}
