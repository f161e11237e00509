//! A reading glass over words whose settings and length are right.

use crate::settings::{Settings, ENTRY_WORDS, HEADER_WORDS, NONE};

/// Where the header's words stand.
pub mod header {
    pub const POLICY: usize = 0;
    pub const CAPACITY: usize = 1;
    pub const ENTRIES: usize = 2;
    pub const BITS: usize = 3;
    pub const FIRST: usize = 4;
    pub const SECOND: usize = 5;
    pub const DIAL: usize = 6;
    pub const LAST: usize = 15;

    /// The word that holds a list's head.
    pub fn head(list: usize) -> usize {
        5 + 2 * list
    }

    /// The word that holds a list's tail.
    pub fn tail(list: usize) -> usize {
        6 + 2 * list
    }
}

/// How many lists the header has room for.
pub const HEADER_LISTS: usize = 4;

/// The eight words of an entry.
#[derive(Clone, Copy, Debug, PartialEq, Eq)]
pub struct Entry {
    pub page: u32,
    pub list: u32,
    pub slot: u32,
    pub previous: u32,
    pub next: u32,
    pub chain: u32,
    pub mark: u32,
    pub last: u32,
}

impl Entry {
    /// The entry without a page.
    pub const FREE: Entry = Entry {
        page: NONE,
        list: 0,
        slot: NONE,
        previous: NONE,
        next: NONE,
        chain: NONE,
        mark: 0,
        last: 0,
    };

    /// The entry with these words.
    pub fn from_words(words: &[u32]) -> Entry {
        Entry {
            page: words[0],
            list: words[1],
            slot: words[2],
            previous: words[3],
            next: words[4],
            chain: words[5],
            mark: words[6],
            last: words[7],
        }
    }

    /// The entry's words.
    pub fn to_words(self) -> [u32; ENTRY_WORDS] {
        [
            self.page,
            self.list,
            self.slot,
            self.previous,
            self.next,
            self.chain,
            self.mark,
            self.last,
        ]
    }

    /// Whether the entry is on a list.
    pub fn is_used(&self) -> bool {
        self.list != 0
    }
}

/// Words with right settings and length.
pub struct View<'a> {
    pub settings: Settings,
    words: &'a [u32],
}

impl<'a> View<'a> {
    /// The view of words whose settings and length are right.
    pub fn new(settings: Settings, words: &'a [u32]) -> View<'a> {
        View { settings, words }
    }

    /// Word 6, ARC's target or CLOCK's hand.
    pub fn dial(&self) -> u32 {
        self.words[header::DIAL]
    }

    /// Word 15.
    pub fn last_header_word(&self) -> u32 {
        self.words[header::LAST]
    }

    /// The head of a list.
    pub fn head(&self, list: usize) -> u32 {
        self.words[header::head(list)]
    }

    /// The tail of a list.
    pub fn tail(&self, list: usize) -> u32 {
        self.words[header::tail(list)]
    }

    /// An entry.
    pub fn entry(&self, number: usize) -> Entry {
        let start = HEADER_WORDS + ENTRY_WORDS * number;
        Entry::from_words(&self.words[start..start + ENTRY_WORDS])
    }

    /// All entries, in the order of their numbers.
    pub fn entries(&self) -> impl Iterator<Item = Entry> + '_ {
        (0..self.settings.entries()).map(|number| self.entry(number))
    }

    /// All entries that are on a list.
    pub fn used_entries(&self) -> impl Iterator<Item = Entry> + '_ {
        self.entries().filter(Entry::is_used)
    }

    /// The number of entries on a list.
    pub fn size(&self, list: usize) -> usize {
        self.entries()
            .filter(|entry| entry.list as usize == list)
            .count()
    }

    /// Whether the entry is on a list of pages with slots.
    pub fn is_held(&self, entry: &Entry) -> bool {
        entry.is_used() && !self.settings.policy.is_ghost_list(entry.list as usize)
    }

    /// The number of entries on lists of pages with slots.
    pub fn held(&self) -> usize {
        self.entries().filter(|entry| self.is_held(entry)).count()
    }

    /// The first entry of a bucket's chain.
    pub fn bucket(&self, number: usize) -> u32 {
        self.words[HEADER_WORDS + ENTRY_WORDS * self.settings.entries() + number]
    }

    /// The entries visited from a link until NONE; nothing if a link leaves the entries or the walk never ends.
    pub fn walk(&self, start: u32, follow: fn(&Entry) -> u32) -> Option<Vec<usize>> {
        let mut visited = Vec::new();
        let mut link = start;
        while link != NONE {
            let number = link as usize;
            if number >= self.settings.entries() || visited.len() == self.settings.entries() {
                return None;
            }
            visited.push(number);
            link = follow(&self.entry(number));
        }
        Some(visited)
    }
}
