//! Damaged and senseless words: the auditor names the rule, agrees with the second opinion and never panics.

use crate::audit::first_broken_rule;
use crate::calls::{audit, replay};
use crate::codec::encode;
use crate::judge;
use crate::model::{Directory, Member};
use crate::random::{page_pool, settings_at, sound_directory, Random};
use crate::settings::{Policy, Settings, NONE};

use super::bench::formed;
use super::tally::Tally;

/// Sound directories damaged, for each policy.
const DIRECTORIES: usize = 300;
/// Damages of each directory.
const DAMAGES: usize = 60;
/// Pieces of senseless words.
const SENSELESS: usize = 20_000;

/// Damages of LRU with C 2 after 7 9 7 5, as place, value and first broken rule, worked out by hand.
const LRU_DAMAGES: &[(usize, u32, u32)] = &[
    (0, 0, 1),
    (0, 2, 4),
    (0, 5, 1),
    (1, 1, 1),
    (2, 3, 1),
    (3, 2, 1),
    (4, 1, 1),
    (5, 1, 1),
    (6, 1, 2),
    (15, NONE, 2),
    (7, 0, 4),
    (7, NONE, 4),
    (8, 1, 4),
    (8, 2, 4),
    (9, 0, 4),
    (14, 1, 4),
    (16, NONE, 3),
    (16, 5, 5),
    (16, 9, 7),
    (17, 0, 3),
    (17, 2, 3),
    (18, 1, 6),
    (18, 2, 6),
    (18, NONE, 6),
    (19, NONE, 4),
    (20, 0, 4),
    (20, 1, 4),
    (21, 0, 7),
    (21, 1, 7),
    (22, 1, 3),
    (23, 1, 3),
    (29, NONE, 7),
    (29, 2, 7),
    (32, 0, 7),
    (32, NONE, 7),
    (33, 0, 7),
    (16, 0, 0),
];

/// Damages of CLOCK with C 3 after 1 2 3 1 4, as place, value and first broken rule, worked out by hand: 1 4 3 in the slots, the hand at 2.
const CLOCK_DAMAGES: &[(usize, u32, u32)] = &[
    (0, 1, 2),
    (6, 0, 0),
    (6, 1, 0),
    (6, 3, 2),
    (7, 0, 4),
    (8, 2, 4),
    (13, 0, 4),
    (16, 3, 5),
    (17, 2, 3),
    (18, 1, 4),
    (18, NONE, 4),
    (19, 1, 4),
    (20, 0, 4),
    (22, 1, 0),
    (30, 1, 0),
    (30, 2, 3),
    (39, 1, 3),
];

/// Damages of ARC with C 2 after 1 2 1 3, as place, value and first broken rule, worked out by hand: T1 3, T2 1, B1 2; entries 1 2 3 and a free one.
const ARC_DAMAGES: &[(usize, u32, u32)] = &[
    (0, 1, 1),
    (6, 1, 0),
    (6, 2, 0),
    (6, 3, 2),
    (7, 1, 4),
    (13, 3, 4),
    (17, 1, 4),
    (17, 5, 3),
    (25, 4, 4),
    (25, 1, 4),
    (26, 0, 6),
    (26, 1, 6),
    (34, 0, 6),
    (34, 2, 6),
    (34, NONE, 6),
    (38, 1, 3),
    (40, 9, 3),
    (41, 1, 3),
];

/// Runs all damages.
pub fn run(tally: &mut Tally, random: &mut Random) -> String {
    chosen_lru_damages(tally);
    chosen_clock_damages(tally);
    chosen_arc_damages(tally);
    chosen_limits(tally);
    let mut rules = [0; 9];
    for policy in Policy::ALL {
        for _ in 0..DIRECTORIES {
            random_damages(tally, random, policy, &mut rules);
        }
    }
    for _ in 0..SENSELESS {
        senseless(tally, random);
    }
    format!("random damages by first broken rule 0 to 8: {rules:?}; {SENSELESS} senseless words")
}

/// Changes single words of a directory and checks the first broken rule of each change.
fn check_rows(tally: &mut Tally, words: &[u32], rows: &[(usize, u32, u32)]) {
    for (place, value, rule) in rows {
        let mut damaged = words.to_vec();
        damaged[*place] = *value;
        tally.equal(
            &format!("word {place} to {value}"),
            first_broken_rule(&damaged),
            *rule,
        );
    }
}

/// The words of a directory after some requests.
fn words_after(settings: [u32; 4], trace: &[u32]) -> Vec<u32> {
    let mut words = formed(settings[0], settings[1], settings[2], settings[3]);
    replay(&mut words, trace).expect("a replay before the damages");
    words
}

/// Changed words of LRU, and words cut off or with one more.
fn chosen_lru_damages(tally: &mut Tally) {
    let mut words = words_after([1, 2, 0, 0], &[7, 9, 7, 5]);
    check_rows(tally, &words, LRU_DAMAGES);
    for length in 0..words.len() {
        tally.equal("cut words", first_broken_rule(&words[..length]), 1);
    }
    words.push(NONE);
    tally.equal("a word more", first_broken_rule(&words), 1);
}

/// Changed words of CLOCK, and of a fresh CLOCK.
fn chosen_clock_damages(tally: &mut Tally) {
    let words = words_after([2, 3, 0, 0], &[1, 2, 3, 1, 4]);
    check_rows(tally, &words, CLOCK_DAMAGES);
    check_rows(
        tally,
        &formed(2, 3, 0, 0),
        &[
            (0, 1, 0),
            (0, 2, 0),
            (0, 3, 1),
            (22, 1, 3),
            (18, 0, 3),
            (40, 0, 7),
        ],
    );
}

/// Changed words of ARC.
fn chosen_arc_damages(tally: &mut Tally) {
    let words = words_after([5, 2, 0, 0], &[1, 2, 1, 3]);
    check_rows(tally, &words, ARC_DAMAGES);
}

/// Limits of rule h, broken by list sizes alone.
fn chosen_limits(tally: &mut Tally) {
    let mut words = words_after([3, 4, 3, 0], &[1, 2, 3, 1, 2, 3]);
    for (first, rule) in [(0, 1), (1, 8), (2, 8), (3, 0), (4, 1)] {
        words[4] = first;
        tally.equal("Q over first", first_broken_rule(&words), rule);
    }
    let rows: [(u32, [usize; 4], u32); 12] = [
        (5, [2, 1, 0, 0], 0),
        (5, [2, 1, 1, 2], 0),
        (5, [0, 3, 3, 0], 0),
        (5, [3, 0, 0, 3], 0),
        (5, [2, 1, 2, 0], 8),
        (5, [1, 1, 1, 0], 8),
        (5, [1, 1, 0, 1], 8),
        (5, [2, 2, 0, 0], 8),
        (4, [2, 1, 2, 0], 0),
        (4, [0, 1, 2, 0], 0),
        (4, [2, 2, 0, 0], 8),
        (4, [1, 1, 3, 0], 8),
    ];
    for (policy, sizes, rule) in rows {
        let words = words_with_sizes(policy, &sizes);
        tally.equal(
            &format!("policy {policy} with sizes {sizes:?}"),
            first_broken_rule(&words),
            rule,
        );
        tally.equal(
            "second opinion on sizes",
            judge::is_sound(&words),
            rule == 0,
        );
    }
}

/// The words of a directory with capacity 3 and Kout 2 whose lists have the given sizes.
fn words_with_sizes(policy: u32, sizes: &[usize]) -> Vec<u32> {
    let (first, second) = if policy == 4 { (1, 2) } else { (0, 0) };
    let settings = Settings::checked(policy, 3, first, second).expect("settings that form accepts");
    let mut directory = Directory::fresh(settings);
    for list in 1..=settings.policy.lists() {
        for _ in 0..sizes[list - 1] {
            let page = directory.total() as u32;
            let slot = (!settings.policy.is_ghost_list(list)).then(|| directory.held() as u32);
            directory.seat(page);
            directory.put_front(
                list,
                Member {
                    page,
                    slot,
                    mark: false,
                },
            );
        }
    }
    encode(&directory)
}

/// One or two words of a random sound directory changed.
fn random_damages(tally: &mut Tally, random: &mut Random, policy: Policy, rules: &mut [u32; 9]) {
    let capacity = random.between(1, 4);
    let settings = settings_at(random, policy, capacity);
    let pool = page_pool(random, settings.entries() + 1, false);
    let words = encode(&sound_directory(random, settings, &pool));
    tally.equal("before the damage", first_broken_rule(&words), 0);
    for _ in 0..DAMAGES {
        let mut damaged = words.clone();
        for _ in 0..random.between(1, 2) {
            let place = random.below(damaged.len());
            damaged[place] = senseless_word(random, &words);
        }
        compare_opinions(tally, &damaged);
        rules[first_broken_rule(&damaged) as usize] += 1;
    }
}

/// Words without sense but for what chance gives the header.
fn senseless(tally: &mut Tally, random: &mut Random) {
    let capacity = random.between(1, 6);
    let policy = random.pick(&Policy::ALL);
    let settings = settings_at(random, policy, capacity);
    let mut words = formed(
        policy.number(),
        settings.capacity,
        settings.first,
        settings.second,
    );
    let start = random.pick(&[0, 6, 16]);
    let before = words.clone();
    for word in &mut words[start..] {
        *word = senseless_word(random, &before);
    }
    if random.one_in(8) {
        words.truncate(random.below(before.len()));
    }
    compare_opinions(tally, &words);
}

/// A word that is small, NONE, near NONE, or another word's value.
fn senseless_word(random: &mut Random, words: &[u32]) -> u32 {
    match random.below(6) {
        0 => NONE,
        1 => NONE - 1 - random.below(3) as u32,
        2 => random.next() as u32,
        3 => random.pick(words),
        _ => random.below(10) as u32,
    }
}

/// Checks that both opinions on soundness agree.
fn compare_opinions(tally: &mut Tally, words: &[u32]) {
    tally.check(audit(words) == judge::is_sound(words), || {
        format!("the opinions differ on {words:?}")
    });
}
