//! A second opinion on soundness: words are sound exactly if they are what a proper model encodes to.

use std::collections::HashSet;

use crate::codec::{decode, encode};
use crate::model::Directory;
use crate::settings::Policy;

/// Whether the words stand for a proper directory and encoding it gives them back.
pub fn is_sound(words: &[u32]) -> bool {
    decode(words).is_some_and(|directory| is_proper(&directory) && encode(&directory) == words)
}

/// Whether a directory's parts agree and keep their limits.
pub fn is_proper(directory: &Directory) -> bool {
    pages_agree(directory)
        && chains_agree(directory)
        && slots_agree(directory)
        && marks_agree(directory)
        && limits_hold(directory)
}

/// Whether the table and the lists have the same pages, each once.
fn pages_agree(directory: &Directory) -> bool {
    let mut seated: Vec<u32> = directory.table.iter().flatten().copied().collect();
    let mut listed: Vec<u32> = directory
        .lists
        .iter()
        .flatten()
        .map(|member| member.page)
        .collect();
    seated.sort_unstable();
    listed.sort_unstable();
    seated == listed && seated.windows(2).all(|pair| pair[0] != pair[1])
}

/// Whether the chains have each used entry once, in its page's bucket.
fn chains_agree(directory: &Directory) -> bool {
    let mut chained = HashSet::new();
    let rightly_chained = directory.chains.iter().enumerate().all(|(bucket, chain)| {
        chain.iter().all(|entry| {
            let page = directory.table[*entry];
            page.is_some_and(|page| directory.settings.bucket_of(page) == bucket)
                && chained.insert(*entry)
        })
    });
    rightly_chained && chained.len() == directory.table.iter().flatten().count()
}

/// Whether the held pages have the slots from 0 up, ghosts none, and CLOCK's pages stand in their slot's entry.
fn slots_agree(directory: &Directory) -> bool {
    let policy = directory.settings.policy;
    let right_kind = directory.lists.iter().enumerate().all(|(index, members)| {
        members
            .iter()
            .all(|member| member.slot.is_none() == policy.is_ghost_list(index + 1))
    });
    let mut slots: Vec<u32> = directory
        .lists
        .iter()
        .flatten()
        .filter_map(|member| member.slot)
        .collect();
    slots.sort_unstable();
    let from_zero_up = slots
        .iter()
        .enumerate()
        .all(|(index, slot)| *slot as usize == index);
    let own_entries = policy != Policy::Clock
        || directory.lists.iter().flatten().all(|member| {
            member
                .slot
                .is_some_and(|slot| directory.table.get(slot as usize) == Some(&Some(member.page)))
        });
    right_kind && from_zero_up && own_entries
}

/// Whether only CLOCK marks, and target and hand are in their ranges.
fn marks_agree(directory: &Directory) -> bool {
    let settings = &directory.settings;
    let unmarked = directory.lists.iter().flatten().all(|member| !member.mark);
    match settings.policy {
        Policy::Clock => directory.dial < settings.capacity,
        Policy::Arc => unmarked && directory.dial <= settings.capacity,
        Policy::Lru | Policy::Segmented | Policy::TwoQ => unmarked && directory.dial == 0,
    }
}

/// Whether the lists are no longer than they may be.
fn limits_hold(directory: &Directory) -> bool {
    let settings = &directory.settings;
    let sizes: Vec<usize> = directory.lists.iter().map(Vec::len).collect();
    let capacity = directory.capacity();
    let by_policy = match (settings.policy, &sizes[..]) {
        (Policy::Segmented, [_, protected]) => *protected <= settings.first as usize,
        (Policy::TwoQ, [_, _, ghosts]) => *ghosts <= settings.second as usize,
        (Policy::Arc, [t1, t2, b1, b2]) => {
            t1 + b1 <= capacity
                && t1 + t2 + b1 + b2 <= 2 * capacity
                && (b1 + b2 == 0 || t1 + t2 == capacity)
        }
        _ => true,
    };
    directory.held() <= capacity && by_policy
}
