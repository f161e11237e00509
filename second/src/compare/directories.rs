//! Sound, damaged and senseless directories: audit, look and report on all of them.

use crate::codec::encode;
use crate::model::{Directory, Member};
use crate::random::{page_pool, settings_at, sound_directory, Random};
use crate::settings::{Policy, ENTRY_WORDS, HEADER_WORDS, NONE};

use super::bench::Bench;
use super::call::{Audit, Call, Look, Report};
use super::stock::{garbage, reached_directory, CAPACITIES};

/// The largest capacity of which every single word is changed.
const SMALL: u32 = 3;

/// Small directories of each policy and capacity, for each unit of scale.
const SMALL_DIRECTORIES: usize = 12;

/// Random damages of each larger directory.
const DAMAGES: usize = 60;

/// Directories with limits kept or broken, for each policy and unit of scale.
const SIZED: usize = 1_500;

/// Pieces of senseless words for each unit of scale.
const SENSELESS: usize = 20_000;

/// Compares pd_audit, pd_look and pd_report.
pub fn run(bench: &mut Bench, random: &mut Random, scale: usize) {
    for policy in Policy::ALL {
        for _ in 0..SIZED * scale {
            sized(bench, random, policy);
        }
    }
    for capacity in CAPACITIES {
        for policy in Policy::ALL {
            for _ in 0..rounds(capacity, scale) {
                of_capacity(bench, random, policy, capacity);
            }
        }
    }
    for _ in 0..SENSELESS * scale {
        senseless(bench, random);
    }
    lengths(bench, random);
}

/// How many directories of a capacity are compared.
fn rounds(capacity: u32, scale: usize) -> usize {
    match capacity {
        0..=SMALL => SMALL_DIRECTORIES * scale,
        4..=100 => 12 * scale,
        _ => 4 * scale,
    }
}

/// A random sound directory and one that requests reach, and damages of both.
fn of_capacity(bench: &mut Bench, random: &mut Random, policy: Policy, capacity: u32) {
    let settings = settings_at(random, policy, capacity);
    let large_pages = random.one_in(2);
    let pool = page_pool(random, settings.entries() + 1, large_pages);
    let any = sound_directory(random, settings, &pool);
    let reached = reached_directory(random, settings, &pool);
    for directory in [any, reached] {
        if bench.is_done() {
            return;
        }
        let words = encode(&directory);
        whole(bench, random, &words, &pool);
        if capacity <= SMALL {
            single_words(bench, random, &words, &pool);
            exchanged_words(bench, random, &words, &pool);
        }
        random_damages(bench, random, &words, &pool);
    }
}

/// A sound directory: every list with every kind of buffer, pages of every kind, and lengths off by one.
fn whole(bench: &mut Bench, random: &mut Random, words: &[u32], pool: &[u32]) {
    bench.compare("a sound directory", &Call::Audit(Audit { words }));
    let shown = pool.iter().take(40).copied();
    for page in shown.chain([NONE, NONE - 1, 0]) {
        look(bench, random, "a sound directory", words, page);
    }
    for list in [0, 1, 2, 3, 4, 5, NONE] {
        every_buffer(bench, random, words, list);
    }
    let shorter = &words[..words.len() - 1];
    let longer = [words, &[NONE]].concat();
    for other in [shorter, &longer] {
        all_three(bench, random, "a length off by one", other, pool);
    }
}

/// Compares report with buffers of no words, one short, exact, and longer ones.
fn every_buffer(bench: &mut Bench, random: &mut Random, words: &[u32], list: u32) {
    let size = listed(words, list);
    for length in [size, size.saturating_sub(1), size + 1, 0, size + 20] {
        report(bench, random, "a sound directory", words, list, length);
    }
}

/// How many entries have the list's number.
fn listed(words: &[u32], list: u32) -> usize {
    let entries = words[2] as usize;
    (0..entries)
        .filter(|number| words[16 + 8 * number + 1] == list)
        .count()
}

/// Every single word of a directory set to several values.
fn single_words(bench: &mut Bench, random: &mut Random, words: &[u32], pool: &[u32]) {
    let mut damaged = words.to_vec();
    for place in 0..words.len() {
        for value in values(random, words, words[place]) {
            damaged[place] = value;
            all_three(bench, random, "one changed word", &damaged, pool);
        }
        damaged[place] = words[place];
    }
}

/// Each word of an entry exchanged with that of every other entry.
fn exchanged_words(bench: &mut Bench, random: &mut Random, words: &[u32], pool: &[u32]) {
    let entries = words[2] as usize;
    let mut damaged = words.to_vec();
    for word in 0..ENTRY_WORDS {
        let place = |entry| HEADER_WORDS + ENTRY_WORDS * entry + word;
        for (one, other) in (0..entries).flat_map(|one| (0..one).map(move |other| (one, other))) {
            damaged.swap(place(one), place(other));
            all_three(bench, random, "exchanged words", &damaged, pool);
            damaged.swap(place(one), place(other));
        }
    }
}

/// What a word is changed to.
fn values(random: &mut Random, words: &[u32], word: u32) -> [u32; 12] {
    [
        0,
        1,
        2,
        3,
        NONE,
        NONE - 1,
        word.wrapping_add(1),
        word.wrapping_sub(1),
        word ^ (1 << 31),
        words[1],
        words[2],
        random.pick(words),
    ]
}

/// One, two or three words changed at random.
fn random_damages(bench: &mut Bench, random: &mut Random, words: &[u32], pool: &[u32]) {
    for _ in 0..DAMAGES {
        let mut damaged = words.to_vec();
        for _ in 0..random.between(1, 3) {
            let place = random.below(damaged.len());
            let choices = values(random, words, words[place]);
            damaged[place] = random.pick(&choices);
        }
        all_three(bench, random, "changed words", &damaged, pool);
    }
}

/// A directory that is proper but for the sizes of its lists, which may be over their limits.
fn sized(bench: &mut Bench, random: &mut Random, policy: Policy) {
    let capacity = random.between(1, 5);
    let settings = settings_at(random, policy, capacity);
    let mut directory = Directory::fresh(settings);
    let used = random.below(settings.entries() + 1);
    for page in 0..used as u32 {
        let list = 1 + random.below(policy.lists());
        let slot = (!policy.is_ghost_list(list)).then(|| directory.held() as u32);
        let mark = policy == Policy::Clock && random.one_in(2);
        directory.seat(page);
        let member = Member { page, slot, mark };
        if policy == Policy::Clock {
            directory.list_mut(list).push(member);
        } else {
            directory.put_front(list, member);
        }
    }
    let pool: Vec<u32> = (0..=used as u32).collect();
    all_three(bench, random, "list sizes", &encode(&directory), &pool);
}

/// Words without sense but for what the header keeps.
fn senseless(bench: &mut Bench, random: &mut Random) {
    let policy = random.pick(&Policy::ALL);
    let capacity = random.between(1, 6);
    let settings = settings_at(random, policy, capacity);
    let mut words = encode(&Directory::fresh(settings));
    let start = random.pick(&[0, 6, 7, 16]);
    let rest = garbage(random, words.len() - start);
    words[start..].copy_from_slice(&rest);
    all_three(bench, random, "senseless words", &words, &[0, 1, 2]);
}

/// Slices of all short lengths, of garbage and cut from a directory.
fn lengths(bench: &mut Bench, random: &mut Random) {
    let settings = settings_at(random, Policy::Arc, 3);
    let whole = encode(&Directory::fresh(settings));
    for length in 0..=whole.len() {
        let words = garbage(random, length);
        all_three(bench, random, "short garbage", &words, &[0]);
        all_three(bench, random, "a cut directory", &whole[..length], &[0]);
    }
}

/// Compares audit, a look and a report on the words.
fn all_three(bench: &mut Bench, random: &mut Random, what: &str, words: &[u32], pool: &[u32]) {
    bench.compare(what, &Call::Audit(Audit { words }));
    let page = if random.one_in(6) {
        NONE
    } else {
        random.pick(pool)
    };
    look(bench, random, what, words, page);
    let (list, length) = (random.between(0, 5), random.below(8));
    report(bench, random, what, words, list, length);
}

/// Compares a look.
fn look(bench: &mut Bench, random: &mut Random, what: &str, words: &[u32], page: u32) {
    let answer = [random.next() as u32, random.next() as u32];
    bench.compare(
        what,
        &Call::Look(Look {
            words,
            page,
            answer,
        }),
    );
}

/// Compares a report to a buffer of a length.
fn report(
    bench: &mut Bench,
    random: &mut Random,
    what: &str,
    words: &[u32],
    list: u32,
    length: usize,
) {
    let result = garbage(random, length);
    let answer = [random.next() as u32];
    bench.compare(
        what,
        &Call::Report(Report {
            words,
            list,
            result: &result,
            answer,
        }),
    );
}
