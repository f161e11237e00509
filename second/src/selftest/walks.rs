//! Random requests over all policies, each judged by audit, re-encoding, look and a simulated memory, and random curves.

use std::collections::HashMap;

use crate::audit::first_broken_rule;
use crate::calls::{curve, look, replay, request, Counts, Looked};
use crate::codec::{decode, encode};
use crate::judge;
use crate::model::Directory;
use crate::policies::Answer;
use crate::random::{page_pool, settings_at, sound_directory, trace_over, Random};
use crate::settings::{Policy, Settings, NONE};

use super::tally::Tally;

/// Traces for each policy and small capacity.
const SMALL_TRACES: usize = 40;
/// Requests of a trace at a small capacity.
const SMALL_LENGTH: usize = 120;
/// Capacities tried besides the small ones.
const LARGE_CAPACITIES: [u32; 3] = [64, 511, 512];
/// Unreached sound directories for each policy and small capacity.
const STRANGE_STARTS: usize = 150;
/// Curves compared with stack distances.
const CURVES: usize = 60;

/// What happened in all traces together.
#[derive(Default)]
struct Happenings {
    requests: usize,
    hits: usize,
    loads: usize,
    swaps: usize,
    ghost_hits: usize,
    marks: u32,
}

/// Runs all random traces.
pub fn run(tally: &mut Tally, random: &mut Random) -> String {
    let mut happenings = Happenings::default();
    for policy in Policy::ALL {
        for capacity in 1..=8 {
            small_traces(tally, random, &mut happenings, policy, capacity);
            strange_starts(tally, random, &mut happenings, policy, capacity);
        }
        for capacity in LARGE_CAPACITIES {
            large_trace(tally, random, &mut happenings, policy, capacity);
        }
    }
    curves(tally, random);
    let Happenings {
        requests,
        hits,
        loads,
        swaps,
        ghost_hits,
        marks,
    } = happenings;
    format!("{requests} requests: {hits} hits, {loads} loads, {swaps} swaps, {ghost_hits} ghosts recalled, {marks} marks cleared")
}

/// Short traces from fresh directories over few pages.
fn small_traces(
    tally: &mut Tally,
    random: &mut Random,
    happenings: &mut Happenings,
    policy: Policy,
    capacity: u32,
) {
    for number in 0..SMALL_TRACES {
        let settings = settings_at(random, policy, capacity);
        let entries = settings.entries();
        let pool_size = random.between(settings.capacity + 1, entries as u32 + 3) as usize;
        let pool = page_pool(random, pool_size, number % 4 == 0);
        let trace = trace_over(random, &pool, SMALL_LENGTH);
        follow(tally, happenings, Directory::fresh(settings), &trace);
    }
}

/// A few requests from sound directories that requests may never reach.
fn strange_starts(
    tally: &mut Tally,
    random: &mut Random,
    happenings: &mut Happenings,
    policy: Policy,
    capacity: u32,
) {
    for number in 0..STRANGE_STARTS {
        let settings = settings_at(random, policy, capacity);
        let pool = page_pool(random, settings.entries() + 2, number % 4 == 0);
        let start = sound_directory(random, settings, &pool);
        let trace = trace_over(random, &pool, 8);
        follow(tally, happenings, start, &trace);
    }
}

/// A long trace at a large capacity.
fn large_trace(
    tally: &mut Tally,
    random: &mut Random,
    happenings: &mut Happenings,
    policy: Policy,
    capacity: u32,
) {
    let settings = settings_at(random, policy, capacity);
    let pool = page_pool(
        random,
        settings.entries() + settings.entries() / 4 + 2,
        capacity == 511,
    );
    let trace = trace_over(random, &pool, settings.entries() * 3 / 2);
    follow(tally, happenings, Directory::fresh(settings), &trace);
}

/// Does a trace by single requests and by one replay, and judges every step.
fn follow(tally: &mut Tally, happenings: &mut Happenings, start: Directory, trace: &[u32]) {
    let mut words = encode(&start);
    judge_words(tally, &words, "start");
    let mut replayed = words.clone();
    let mut memory = contents(&start);
    let mut counts = Counts::default();
    for page in trace {
        let before = words.clone();
        let looked = look(&words, *page).expect("a look at a sound directory");
        let answer = request(&mut words, *page).expect("an answer of a sound directory");
        judge_words(tally, &words, "request");
        judge_memory(tally, &before, &words, *page);
        judge_answer(tally, &start.settings, looked, answer, &mut memory, *page);
        counts.add(answer);
        note(happenings, looked, answer);
    }
    tally.equal("replay's counts", replay(&mut replayed, trace), Ok(counts));
    tally.equal("replay's words", replayed, words);
}

/// What the slots of a directory hold.
fn contents(directory: &Directory) -> HashMap<u32, u32> {
    directory
        .lists
        .iter()
        .flatten()
        .filter_map(|member| member.slot.map(|slot| (slot, member.page)))
        .collect()
}

/// Checks that words are sound by both opinions, of which the second decodes them and encodes them again.
fn judge_words(tally: &mut Tally, words: &[u32], what: &str) {
    tally.check(first_broken_rule(words) == 0, || {
        format!("{what}: unsound words {words:?}")
    });
    tally.check(judge::is_sound(words), || {
        format!("{what}: the second opinion differs on {words:?}")
    });
}

/// Checks that pages that stay keep their entries and chain places, and that a new page stands where it should.
fn judge_memory(tally: &mut Tally, before: &[u32], after: &[u32], page: u32) {
    let (Some(before), Some(after)) = (decode(before), decode(after)) else {
        return tally.check(false, || "words without a directory".to_string());
    };
    let stays = |entry: usize| before.table[entry].is_some_and(|page| after.find(page).is_some());
    let mut table = before.table.clone();
    for entry in (0..table.len()).filter(|entry| !stays(*entry)) {
        table[entry] = None;
    }
    let mut chains = before.chains.clone();
    chains
        .iter_mut()
        .for_each(|chain| chain.retain(|entry| stays(*entry)));
    if before.find(page).is_none() {
        let lowest = table
            .iter()
            .position(Option::is_none)
            .unwrap_or(table.len());
        table
            .iter_mut()
            .skip(lowest)
            .take(1)
            .for_each(|seat| *seat = Some(page));
        chains[before.settings.bucket_of(page)].insert(0, lowest);
    }
    tally.check(table == after.table && chains == after.chains, || {
        format!("entries or chains after page {page}: {before:?} became {after:?}")
    });
}

/// Checks an answer against the look before it and against the simulated memory, which then follows it.
fn judge_answer(
    tally: &mut Tally,
    settings: &Settings,
    looked: Looked,
    answer: Answer,
    memory: &mut HashMap<u32, u32>,
    page: u32,
) {
    let (right, cleared) = match answer {
        Answer::Hit { slot, cleared } => (
            looked == Looked::Held(slot) && memory.get(&slot) == Some(&page) && cleared == 0,
            cleared,
        ),
        Answer::Loaded { slot, cleared } => {
            let lowest = (0..settings.capacity).find(|slot| !memory.contains_key(slot));
            (
                lowest == Some(slot) && memory.insert(slot, page).is_none() && cleared == 0,
                cleared,
            )
        }
        Answer::Swapped { slot, out, cleared } => {
            let full = memory.len() == settings.capacity as usize;
            (
                full && out != NONE && memory.insert(slot, page) == Some(out),
                cleared,
            )
        }
    };
    let held = matches!(looked, Looked::Held(_));
    let is_hit = matches!(answer, Answer::Hit { .. });
    let most_marks = if settings.policy == Policy::Clock {
        settings.capacity
    } else {
        0
    };
    tally.check(right && held == is_hit && cleared <= most_marks, || {
        format!("{settings:?}, page {page}: {answer:?} after {looked:?}, memory {memory:?}")
    });
}

/// Counts what happened.
fn note(happenings: &mut Happenings, looked: Looked, answer: Answer) {
    happenings.requests += 1;
    happenings.ghost_hits += usize::from(looked == Looked::Remembered);
    match answer {
        Answer::Hit { .. } => happenings.hits += 1,
        Answer::Loaded { .. } => happenings.loads += 1,
        Answer::Swapped { cleared, .. } => {
            happenings.swaps += 1;
            happenings.marks += cleared;
        }
    }
}

/// Compares curves with the stack distances of their traces.
fn curves(tally: &mut Tally, random: &mut Random) {
    for number in 0..CURVES {
        let largest = random.between(1, 20);
        let pool_size = random.between(1, 25) as usize;
        let pool = page_pool(random, pool_size, number % 2 == 0);
        let length = random.below(200);
        let trace = trace_over(random, &pool, length);
        let count = largest as usize;
        let (mut result, mut work) = (vec![5; count + 1], vec![6; count + 1]);
        tally.equal(
            "a curve",
            curve(largest, &trace, &mut result, &mut work),
            Ok(()),
        );
        let (mut hits, mut stack) = stack_distances(&trace, count);
        hits.push(5);
        stack.push(6);
        tally.equal("a curve's hits", result, hits);
        tally.equal("a curve's work", work, stack);
    }
}

/// The hits at each capacity and the last stack, from the distances between equal pages.
fn stack_distances(trace: &[u32], count: usize) -> (Vec<u32>, Vec<u32>) {
    let mut hits = vec![0; count];
    let mut stack: Vec<u32> = Vec::new();
    for page in trace {
        if let Some(depth) = stack.iter().position(|other| other == page) {
            stack.remove(depth);
            hits.iter_mut().skip(depth).for_each(|hit| *hit += 1);
        }
        stack.insert(0, *page);
    }
    stack.resize(stack.len().max(count), NONE);
    stack.truncate(count);
    (hits, stack)
}
