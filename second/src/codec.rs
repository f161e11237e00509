//! The edge between the model and the words.

use std::collections::HashMap;

use crate::audit::rule_a;
use crate::model::{Directory, Member};
use crate::settings::{Policy, HEADER_WORDS, NONE};
use crate::view::{header, Entry, View};

/// The words of a directory.
pub fn encode(directory: &Directory) -> Vec<u32> {
    let seats = seats(directory);
    let mut words = encode_header(directory, &seats);
    for entry in encode_entries(directory, &seats) {
        words.extend(entry.to_words());
    }
    words.extend(directory.chains.iter().map(|chain| link_to(chain.first())));
    words
}

/// The header's words.
fn encode_header(directory: &Directory, seats: &HashMap<u32, usize>) -> Vec<u32> {
    let settings = &directory.settings;
    let mut words = vec![NONE; HEADER_WORDS];
    words[header::POLICY] = settings.policy.number();
    words[header::CAPACITY] = settings.capacity;
    words[header::ENTRIES] = settings.entries() as u32;
    words[header::BITS] = settings.index_bits();
    words[header::FIRST] = settings.first;
    words[header::SECOND] = settings.second;
    words[header::DIAL] = directory.dial;
    words[header::LAST] = 0;
    for (list, members) in ordered_lists(directory) {
        words[header::head(list)] = link_to(members.first().map(|member| &seats[&member.page]));
        words[header::tail(list)] = link_to(members.last().map(|member| &seats[&member.page]));
    }
    words
}

/// The entries, free ones and used ones.
fn encode_entries(directory: &Directory, seats: &HashMap<u32, usize>) -> Vec<Entry> {
    let mut entries = vec![Entry::FREE; directory.table.len()];
    for (index, members) in directory.lists.iter().enumerate() {
        for member in members {
            let entry = &mut entries[seats[&member.page]];
            entry.page = member.page;
            entry.list = index as u32 + 1;
            entry.slot = member.slot.unwrap_or(NONE);
            entry.mark = u32::from(member.mark);
        }
    }
    for (_, members) in ordered_lists(directory) {
        for pair in members.windows(2) {
            let (nearer, farther) = (seats[&pair[0].page], seats[&pair[1].page]);
            entries[nearer].next = farther as u32;
            entries[farther].previous = nearer as u32;
        }
    }
    for pair in directory.chains.iter().flat_map(|chain| chain.windows(2)) {
        entries[pair[0]].chain = pair[1] as u32;
    }
    entries
}

/// The lists whose order is kept in links, with their numbers: none for CLOCK.
fn ordered_lists(directory: &Directory) -> impl Iterator<Item = (usize, &Vec<Member>)> {
    let keeps_order = directory.settings.policy != Policy::Clock;
    directory
        .lists
        .iter()
        .enumerate()
        .filter(move |_| keeps_order)
        .map(|(index, members)| (index + 1, members))
}

/// The entry number of each page in the table.
fn seats(directory: &Directory) -> HashMap<u32, usize> {
    directory
        .table
        .iter()
        .enumerate()
        .filter_map(|(number, page)| page.map(|page| (page, number)))
        .collect()
}

/// The link to an entry, or NONE.
fn link_to(entry: Option<&usize>) -> u32 {
    entry.map_or(NONE, |number| *number as u32)
}

/// The directory that words stand for; nothing if rule a is broken or a walk goes astray, and always some if sound.
pub fn decode(words: &[u32]) -> Option<Directory> {
    let view = rule_a(words)?;
    let mut directory = Directory::fresh(view.settings);
    directory.dial = view.dial();
    for list in 1..=view.settings.policy.lists() {
        *directory.list_mut(list) = decode_list(&view, list)?;
    }
    directory.table = view
        .entries()
        .map(|entry| value_or_none(entry.page))
        .collect();
    for bucket in 0..view.settings.buckets() {
        directory.chains[bucket] = view.walk(view.bucket(bucket), |entry| entry.chain)?;
    }
    Some(directory)
}

/// The members of a list: along the links, or in slot order for CLOCK.
fn decode_list(view: &View, list: usize) -> Option<Vec<Member>> {
    let numbers = match view.settings.policy {
        Policy::Clock => (0..view.settings.entries())
            .filter(|number| view.entry(*number).is_used())
            .collect(),
        _ => view.walk(view.head(list), |entry| entry.next)?,
    };
    Some(
        numbers
            .into_iter()
            .map(|number| decode_member(&view.entry(number)))
            .collect(),
    )
}

/// The list member that an entry stands for.
fn decode_member(entry: &Entry) -> Member {
    Member {
        page: entry.page,
        slot: value_or_none(entry.slot),
        mark: entry.mark == 1,
    }
}

/// A word's value, nothing if it is NONE.
fn value_or_none(word: u32) -> Option<u32> {
    (word != NONE).then_some(word)
}
