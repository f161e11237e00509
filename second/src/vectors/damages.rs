//! Sound directories and ones of a wrong length, with single words changed, and the first rule then broken.

use crate::audit::first_broken_rule;
use crate::codec::encode;
use crate::model::Directory;
use crate::policies::request;
use crate::random::{page_pool, trace_over, Random};
use crate::settings::{Settings, ENTRY_WORDS, HEADER_WORDS, NONE};
use crate::view::header;

/// Changes of each directory.
const CHANGES: usize = 45;

/// Changes of each directory with a wrong length.
const MISFIT_CHANGES: usize = 6;

/// The changes of a directory chosen for each rule 0 to 8, where there are so many; the rest is chosen freely.
const QUOTAS: [usize; 9] = [4, 4, 4, 5, 6, 5, 5, 6, 6];

/// One word changed to another value, and the first rule then broken.
#[derive(Clone, Copy, Debug, PartialEq, Eq, PartialOrd, Ord)]
pub struct Change {
    pub place: usize,
    pub value: u32,
    pub rule: u32,
}

/// A directory with its changes.
pub struct DamageVector {
    pub words: Vec<u32>,
    pub changes: Vec<Change>,
}

/// How a directory is reached: policy, capacity, first, second, and the number of requests.
type Plan = (u32, u32, u32, u32, usize);

/// All directories that are damaged.
const PLANS: [Plan; 36] = [
    (1, 1, 0, 0, 2),
    (1, 2, 0, 0, 0),
    (1, 2, 0, 0, 5),
    (1, 3, 0, 0, 12),
    (1, 4, 0, 0, 16),
    (2, 1, 0, 0, 3),
    (2, 2, 0, 0, 6),
    (2, 3, 0, 0, 0),
    (2, 3, 0, 0, 2),
    (2, 4, 0, 0, 17),
    (3, 2, 1, 0, 7),
    (3, 3, 2, 0, 15),
    (3, 4, 2, 0, 3),
    (3, 4, 3, 0, 24),
    (3, 5, 4, 0, 30),
    (3, 6, 5, 0, 36),
    (3, 6, 5, 0, 44),
    (3, 7, 6, 0, 42),
    (3, 8, 7, 0, 48),
    (3, 8, 7, 0, 60),
    (4, 2, 1, 1, 12),
    (4, 2, 1, 2, 14),
    (4, 2, 1, 2, 9),
    (4, 3, 1, 2, 20),
    (4, 3, 2, 3, 22),
    (4, 3, 2, 2, 3),
    (4, 4, 1, 4, 30),
    (4, 4, 3, 1, 24),
    (5, 1, 0, 0, 5),
    (5, 2, 0, 0, 12),
    (5, 2, 0, 0, 2),
    (5, 2, 0, 0, 20),
    (5, 3, 0, 0, 18),
    (5, 3, 0, 0, 25),
    (5, 4, 0, 0, 30),
    (5, 4, 0, 0, 37),
];

/// Generates all damages.
pub fn generate(random: &mut Random) -> Vec<DamageVector> {
    let mut vectors = Vec::new();
    for plan in &PLANS {
        let words = reached(random, plan);
        let changes = balanced_changes(random, &words);
        vectors.push(DamageVector { words, changes });
    }
    vectors
}

/// Generates directories with a word appended or the last removed, and changes of single words besides.
pub fn generate_misfits(random: &mut Random) -> Vec<DamageVector> {
    let mut vectors = Vec::new();
    for plan in PLANS.iter().step_by(4) {
        let mut lengthened = reached(random, plan);
        lengthened.push(random.pick(&[0, 1, NONE]));
        let mut shortened = reached(random, plan);
        shortened.pop();
        for words in [lengthened, shortened] {
            let mut changes = candidates(&words);
            random.shuffle(&mut changes);
            changes.truncate(MISFIT_CHANGES);
            changes.sort_unstable();
            vectors.push(DamageVector { words, changes });
        }
    }
    vectors
}

/// The words of a directory that random requests reach.
fn reached(random: &mut Random, plan: &Plan) -> Vec<u32> {
    let (policy, capacity, first, second, requests) = *plan;
    let settings =
        Settings::checked(policy, capacity, first, second).expect("settings that form accepts");
    let pool = page_pool(random, settings.entries() + 1, false);
    let trace = trace_over(random, &pool, requests);
    let mut directory = Directory::fresh(settings);
    for page in trace {
        request(&mut directory, page);
    }
    encode(&directory)
}

/// Changes of a sound directory, of each first broken rule some.
fn balanced_changes(random: &mut Random, words: &[u32]) -> Vec<Change> {
    let mut rest = candidates(words);
    random.shuffle(&mut rest);
    let mut chosen = Vec::new();
    for (rule, quota) in QUOTAS.into_iter().enumerate() {
        let (of_rule, others): (Vec<Change>, Vec<Change>) = rest
            .into_iter()
            .partition(|change| change.rule as usize == rule);
        let taken = quota.min(of_rule.len());
        chosen.extend(&of_rule[..taken]);
        rest = others;
        rest.extend(&of_rule[taken..]);
    }
    random.shuffle(&mut rest);
    rest.truncate(CHANGES.saturating_sub(chosen.len()));
    chosen.extend(rest);
    chosen.sort_unstable();
    chosen
}

/// All changes that are considered, each of one word to another value.
fn candidates(words: &[u32]) -> Vec<Change> {
    let mut changes = Vec::new();
    for place in 0..words.len() {
        for value in candidate_values(words, place) {
            let mut changed = words.to_vec();
            changed[place] = value;
            changes.push(Change {
                place,
                value,
                rule: first_broken_rule(&changed),
            });
        }
    }
    changes
}

/// The values considered for a word: small ones, great ones, neighbours, and the like words of other entries.
fn candidate_values(words: &[u32], place: usize) -> Vec<u32> {
    let word = words[place];
    let mut values: Vec<u32> = (0..=words[header::ENTRIES] + 1).collect();
    values.extend([
        word.wrapping_add(1),
        word.wrapping_sub(1),
        1 << 31,
        NONE - 1,
        NONE,
    ]);
    if place >= HEADER_WORDS {
        values.extend(
            words[HEADER_WORDS..]
                .iter()
                .skip((place - HEADER_WORDS) % ENTRY_WORDS)
                .step_by(ENTRY_WORDS),
        );
    }
    values.sort_unstable();
    values.dedup();
    values.retain(|value| *value != word);
    values
}

/// What was generated, counted for each first broken rule.
pub fn summary(name: &str, vectors: &[DamageVector]) -> String {
    let mut rules = [0; 9];
    for change in vectors.iter().flat_map(|vector| &vector.changes) {
        rules[change.rule as usize] += 1;
    }
    let total: usize = rules.iter().sum();
    format!(
        "{total} {name} of {} directories, by first broken rule 0 to 8: {rules:?}",
        vectors.len()
    )
}
