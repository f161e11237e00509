//! The rules of soundness over words, one function a rule, each judged only when the earlier ones hold.

use std::collections::HashSet;

use crate::settings::{Policy, Settings, HEADER_WORDS, NONE};
use crate::view::{header, Entry, View, HEADER_LISTS};

/// The number of the first broken rule, 1 for a to 8 for h, or 0 if the words are sound.
pub fn first_broken_rule(words: &[u32]) -> u32 {
    let Some(view) = rule_a(words) else {
        return 1;
    };
    let later_rules = [rule_b, rule_c, rule_d, rule_e, rule_f, rule_g, rule_h];
    later_rules
        .iter()
        .position(|rule| !rule(&view))
        .map_or(0, |index| index as u32 + 2)
}

/// Rule a: the settings are such as form accepts, and E, k and the length follow from them.
pub fn rule_a(words: &[u32]) -> Option<View<'_>> {
    if words.len() < HEADER_WORDS {
        return None;
    }
    let settings = Settings::checked(
        words[header::POLICY],
        words[header::CAPACITY],
        words[header::FIRST],
        words[header::SECOND],
    )
    .ok()?;
    let derived = words[header::ENTRIES] as usize == settings.entries()
        && words[header::BITS] == settings.index_bits()
        && words.len() == settings.length();
    derived.then(|| View::new(settings, words))
}

/// Rule b: the target or hand is in its range, and word 15 is 0.
fn rule_b(view: &View) -> bool {
    let dial_in_range = match view.settings.policy {
        Policy::Arc => view.dial() <= view.settings.capacity,
        Policy::Clock => view.dial() < view.settings.capacity,
        Policy::Lru | Policy::Segmented | Policy::TwoQ => view.dial() == 0,
    };
    dial_in_range && view.last_header_word() == 0
}

/// Rule c: each entry is free, or used as its policy may use it.
fn rule_c(view: &View) -> bool {
    let policy = view.settings.policy;
    view.entries()
        .all(|entry| entry == Entry::FREE || is_rightly_used(policy, &entry))
}

/// Whether a used entry's page, list, mark and last word are such as the policy may write.
fn is_rightly_used(policy: Policy, entry: &Entry) -> bool {
    let largest_mark = if policy == Policy::Clock { 1 } else { 0 };
    entry.page != NONE
        && (1..=policy.lists()).contains(&(entry.list as usize))
        && entry.mark <= largest_mark
        && entry.last == 0
}

/// Rule d: the lists run through exactly their entries, both ways; CLOCK has no links.
fn rule_d(view: &View) -> bool {
    match view.settings.policy {
        Policy::Clock => has_no_order(view),
        _ => (1..=HEADER_LISTS).all(|list| is_linked(view, list)),
    }
}

/// Whether CLOCK's heads, tails and links are NONE and each page stands in the entry of its slot.
fn has_no_order(view: &View) -> bool {
    let no_ends = (1..=HEADER_LISTS).all(|list| view.head(list) == NONE && view.tail(list) == NONE);
    let no_links = view
        .entries()
        .all(|entry| entry.previous == NONE && entry.next == NONE);
    let own_slots = view
        .entries()
        .enumerate()
        .all(|(number, entry)| !entry.is_used() || entry.slot as usize == number);
    no_ends && no_links && own_slots
}

/// Whether a list's walk from its head visits exactly its entries and the walk from its tail is the same backwards.
fn is_linked(view: &View, list: usize) -> bool {
    let forward = view.walk(view.head(list), |entry| entry.next);
    let backward = view.walk(view.tail(list), |entry| entry.previous);
    let (Some(forward), Some(backward)) = (forward, backward) else {
        return false;
    };
    let only_its_entries = forward
        .iter()
        .all(|number| view.entry(*number).list as usize == list);
    only_its_entries && forward.len() == view.size(list) && forward.iter().eq(backward.iter().rev())
}

/// Rule e: no page stands in two used entries.
fn rule_e(view: &View) -> bool {
    let mut seen = HashSet::new();
    view.used_entries().all(|entry| seen.insert(entry.page))
}

/// Rule f: the held pages have the slots from 0 up, each once, and ghosts have none.
fn rule_f(view: &View) -> bool {
    let held = view.held();
    let mut seen = HashSet::new();
    view.used_entries().all(|entry| {
        if view.is_held(&entry) {
            (entry.slot as usize) < held && seen.insert(entry.slot)
        } else {
            entry.slot == NONE
        }
    })
}

/// Rule g: each bucket's chain visits exactly the used entries of that bucket.
fn rule_g(view: &View) -> bool {
    let mut sizes = vec![0; view.settings.buckets()];
    for entry in view.used_entries() {
        sizes[view.settings.bucket_of(entry.page)] += 1;
    }
    (0..view.settings.buckets()).all(|bucket| is_chained(view, bucket, sizes[bucket]))
}

/// Whether a bucket's chain visits only used entries of that bucket, and as many as given.
fn is_chained(view: &View, bucket: usize, size: usize) -> bool {
    let Some(chain) = view.walk(view.bucket(bucket), |entry| entry.chain) else {
        return false;
    };
    let only_its_entries = chain
        .iter()
        .map(|number| view.entry(*number))
        .all(|entry| entry.is_used() && view.settings.bucket_of(entry.page) == bucket);
    only_its_entries && chain.len() == size
}

/// Rule h: the lists keep their limits.
fn rule_h(view: &View) -> bool {
    let capacity = view.settings.capacity as usize;
    let held = view.held();
    let within_policy = match view.settings.policy {
        Policy::Lru | Policy::Clock => true,
        Policy::Segmented => view.size(2) <= view.settings.first as usize,
        Policy::TwoQ => view.size(3) <= view.settings.second as usize,
        Policy::Arc => {
            let ghosts = view.size(3) + view.size(4);
            view.size(1) + view.size(3) <= capacity
                && held + ghosts <= 2 * capacity
                && (ghosts == 0 || held == capacity)
        }
    };
    held <= capacity && within_policy
}
