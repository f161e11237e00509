//! Random traces over small directories, with their answers and their last words.

use std::collections::BTreeSet;

use crate::codec::encode;
use crate::model::Directory;
use crate::policies::{request, Answer};
use crate::random::{page_pool, Random};
use crate::settings::{Policy, Settings, NONE};

/// Requests of each trace, but for those that end early.
const LENGTH: usize = 30;

/// Traces tried for each one that is kept.
const TRIES: usize = 2_000;

/// A trace from a fresh directory.
pub struct TraceVector {
    pub settings: Settings,
    pub pages: Vec<u32>,
    /// Four numbers a request: kind, slot, page put out or NONE, marks cleared.
    pub answers: Vec<u32>,
    pub words: Vec<u32>,
    /// How many requests found their page on a ghost list.
    pub recalled: usize,
    /// The rare things that the trace shows.
    pub rarities: BTreeSet<Rarity>,
}

/// What ARC's requests of ghosts show only now and then, told apart for B1 and B2.
#[derive(Clone, Copy, Debug, PartialEq, Eq, PartialOrd, Ord)]
pub enum Rarity {
    /// The target moves otherwise than by 1.
    LongStep { in_b2: bool },
    /// The target moves otherwise than by a step rounded up; this ends a trace.
    RoundedStep { in_b2: bool },
    /// The target would move past its end.
    PastTheEnd { in_b2: bool },
    /// T1 is as long as the new target.
    Tie,
}

/// What a trace is made of: policy, capacity, first, second, number of pages, and whether pages are large.
type Plan = (u32, u32, u32, u32, usize, bool);

/// All traces that are generated.
const PLANS: [Plan; 40] = [
    (1, 1, 0, 0, 3, false),
    (1, 2, 0, 0, 4, false),
    (1, 3, 0, 0, 5, false),
    (1, 4, 0, 0, 6, false),
    (1, 3, 0, 0, 5, true),
    (1, 8, 0, 0, 10, false),
    (2, 1, 0, 0, 3, false),
    (2, 2, 0, 0, 4, false),
    (2, 3, 0, 0, 5, false),
    (2, 4, 0, 0, 6, false),
    (2, 4, 0, 0, 6, true),
    (2, 8, 0, 0, 11, false),
    (3, 2, 1, 0, 4, false),
    (3, 3, 1, 0, 5, false),
    (3, 3, 2, 0, 5, false),
    (3, 4, 1, 0, 6, false),
    (3, 4, 2, 0, 6, false),
    (3, 4, 3, 0, 7, false),
    (3, 5, 3, 0, 8, false),
    (3, 4, 2, 0, 6, true),
    (4, 2, 1, 1, 4, false),
    (4, 2, 1, 2, 5, false),
    (4, 3, 1, 2, 6, false),
    (4, 3, 2, 1, 5, false),
    (4, 3, 2, 3, 7, false),
    (4, 4, 1, 2, 7, false),
    (4, 4, 2, 4, 9, false),
    (4, 4, 3, 2, 7, false),
    (4, 6, 2, 3, 10, false),
    (4, 4, 1, 4, 9, true),
    (5, 1, 0, 0, 3, false),
    (5, 2, 0, 0, 5, false),
    (5, 5, 0, 0, 9, false),
    (5, 3, 0, 0, 5, false),
    (5, 3, 0, 0, 7, false),
    (5, 4, 0, 0, 6, false),
    (5, 4, 0, 0, 9, false),
    (5, 5, 0, 0, 10, false),
    (5, 6, 0, 0, 12, false),
    (5, 3, 0, 0, 6, true),
];

/// Generates all traces.
pub fn generate(random: &mut Random) -> Vec<TraceVector> {
    let mut seen = BTreeSet::new();
    let mut vectors = Vec::new();
    for plan in &PLANS {
        let vector = generate_one(random, plan, &seen);
        seen.extend(vector.rarities.iter().copied());
        vectors.push(vector);
    }
    vectors
}

/// Generates one trace: of many tried, the one that shows the most of what is rare and not seen yet.
fn generate_one(random: &mut Random, plan: &Plan, seen: &BTreeSet<Rarity>) -> TraceVector {
    let (policy, capacity, first, second, pool_size, large) = *plan;
    let settings =
        Settings::checked(policy, capacity, first, second).expect("settings that form accepts");
    let pool = page_pool(random, pool_size, large);
    let worth = |vector: &TraceVector| {
        let unseen = vector.rarities.difference(seen).count();
        (unseen, vector.rarities.len())
    };
    let mut best = try_trace(random, settings, &pool);
    for _ in 1..TRIES {
        let other = try_trace(random, settings, &pool);
        if worth(&other) > worth(&best) {
            best = other;
        }
    }
    best
}

/// Makes one trace over a pool of pages.
fn try_trace(random: &mut Random, settings: Settings, pool: &[u32]) -> TraceVector {
    let mut directory = Directory::fresh(settings);
    let mut pages = Vec::new();
    let mut answers = Vec::new();
    let mut recalled = 0;
    let mut rarities = BTreeSet::new();
    while pages.len() < LENGTH && !rarities.iter().any(ends_trace) {
        let page = rare_page(&directory, pool, &rarities)
            .unwrap_or_else(|| next_page(random, &directory, pool));
        recalled += usize::from(is_ghost(&directory, page));
        rarities.extend(arc_rarities(&directory, page));
        answers.extend(answer_numbers(request(&mut directory, page)));
        pages.push(page);
    }
    TraceVector {
        settings,
        pages,
        answers,
        words: encode(&directory),
        recalled,
        rarities,
    }
}

/// Whether a rare thing ends its trace, because only the last target is sure to show it.
fn ends_trace(rarity: &Rarity) -> bool {
    matches!(rarity, Rarity::RoundedStep { .. })
}

/// A page of the pool whose request shows a rare thing not seen yet.
fn rare_page(directory: &Directory, pool: &[u32], seen: &BTreeSet<Rarity>) -> Option<u32> {
    let is_new = |page: &u32| {
        arc_rarities(directory, *page)
            .iter()
            .any(|rarity| !seen.contains(rarity))
    };
    pool.iter().copied().find(is_new)
}

/// A page of the pool, a ghost more often than by chance.
fn next_page(random: &mut Random, directory: &Directory, pool: &[u32]) -> u32 {
    let ghosts: Vec<u32> = pool
        .iter()
        .copied()
        .filter(|page| is_ghost(directory, *page))
        .collect();
    if !ghosts.is_empty() && random.one_in(4) {
        random.pick(&ghosts)
    } else {
        random.pick(pool)
    }
}

/// Whether the page is on a ghost list.
fn is_ghost(directory: &Directory, page: u32) -> bool {
    let policy = directory.settings.policy;
    directory
        .find(page)
        .is_some_and(|place| policy.is_ghost_list(place.list))
}

/// The rare things that the request of an ARC ghost shows.
fn arc_rarities(directory: &Directory, page: u32) -> Vec<Rarity> {
    if directory.settings.policy != Policy::Arc || !is_ghost(directory, page) {
        return Vec::new();
    }
    let in_b2 = directory.list(4).iter().any(|member| member.page == page);
    let (own, other) = match in_b2 {
        true => (directory.size(4), directory.size(3)),
        false => (directory.size(3), directory.size(4)),
    };
    let step = (other / own).max(1);
    let moved_by = |step: usize| match in_b2 {
        true => (directory.dial as usize).saturating_sub(step),
        false => directory.capacity().min(directory.dial as usize + step),
    };
    let past_the_end = moved_by(step).abs_diff(directory.dial as usize) < step;
    let tied = in_b2 && directory.size(1) > 0 && directory.size(1) == moved_by(step);
    let rounded_up = other.div_ceil(own).max(1);
    let shown = [
        (moved_by(step) != moved_by(1), Rarity::LongStep { in_b2 }),
        (
            moved_by(step) != moved_by(rounded_up),
            Rarity::RoundedStep { in_b2 },
        ),
        (past_the_end, Rarity::PastTheEnd { in_b2 }),
        (tied, Rarity::Tie),
    ];
    shown
        .into_iter()
        .filter(|(holds, _)| *holds)
        .map(|(_, rarity)| rarity)
        .collect()
}

/// The four numbers of an answer.
fn answer_numbers(answer: Answer) -> [u32; 4] {
    match answer {
        Answer::Hit { slot, cleared } => [1, slot, NONE, cleared],
        Answer::Loaded { slot, cleared } => [2, slot, NONE, cleared],
        Answer::Swapped { slot, out, cleared } => [3, slot, out, cleared],
    }
}

/// What was generated, counted for each policy.
pub fn summary(vectors: &[TraceVector]) -> String {
    let mut lines = vec![format!("{} traces", vectors.len())];
    for policy in Policy::ALL {
        let of_policy: Vec<&TraceVector> = vectors
            .iter()
            .filter(|vector| vector.settings.policy == policy)
            .collect();
        let answers: Vec<u32> = of_policy
            .iter()
            .flat_map(|vector| vector.answers.iter().copied())
            .collect();
        let kinds = |kind: u32| answers.chunks(4).filter(|answer| answer[0] == kind).count();
        let recalled: usize = of_policy.iter().map(|vector| vector.recalled).sum();
        let cleared: u32 = answers.chunks(4).map(|answer| answer[3]).sum();
        lines.push(format!(
            "  {policy:?}: {} requests, {} hits, {} loads, {} swaps, {recalled} ghosts recalled, {cleared} marks cleared",
            answers.len() / 4,
            kinds(1),
            kinds(2),
            kinds(3)
        ));
    }
    let shown: Vec<String> = vectors
        .iter()
        .flat_map(|vector| &vector.rarities)
        .collect::<BTreeSet<&Rarity>>()
        .into_iter()
        .map(|rarity| format!("{rarity:?} {}", count_rarity(vectors, rarity)))
        .collect();
    lines.push(format!("  traces that show: {}", shown.join(", ")));
    lines.join("\n")
}

/// How many traces show a rare thing.
fn count_rarity(vectors: &[TraceVector], rarity: &Rarity) -> usize {
    vectors
        .iter()
        .filter(|vector| vector.rarities.contains(rarity))
        .count()
}
