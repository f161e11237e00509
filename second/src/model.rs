//! The directory as lists of pages, a table of entries and chains: no words.

use std::collections::HashSet;

use crate::settings::Settings;

/// A page on a list, with the slot it holds (none for a ghost) and CLOCK's mark.
#[derive(Clone, Debug, PartialEq, Eq)]
pub struct Member {
    pub page: u32,
    pub slot: Option<u32>,
    pub mark: bool,
}

/// Where a page stands: the list's number and the position from the front.
#[derive(Clone, Copy, Debug, PartialEq, Eq)]
pub struct Place {
    pub list: usize,
    pub position: usize,
}

/// A directory; for CLOCK, which keeps no order, list 1 stands in slot order.
#[derive(Clone, Debug, PartialEq, Eq)]
pub struct Directory {
    pub settings: Settings,
    /// ARC's target or CLOCK's hand, else 0.
    pub dial: u32,
    /// The policy's lists, list 1 first, each with its front first.
    pub lists: Vec<Vec<Member>>,
    /// The page that stands in each entry; its list, slot and mark stand on the lists.
    pub table: Vec<Option<u32>>,
    /// The entry numbers of each bucket, first of the chain first.
    pub chains: Vec<Vec<usize>>,
}

impl Directory {
    /// A directory without pages.
    pub fn fresh(settings: Settings) -> Directory {
        Directory {
            settings,
            dial: 0,
            lists: vec![Vec::new(); settings.policy.lists()],
            table: vec![None; settings.entries()],
            chains: vec![Vec::new(); settings.buckets()],
        }
    }

    /// The members of a list, front first.
    pub fn list(&self, list: usize) -> &[Member] {
        &self.lists[list - 1]
    }

    /// The members of a list, to be changed.
    pub fn list_mut(&mut self, list: usize) -> &mut Vec<Member> {
        &mut self.lists[list - 1]
    }

    /// The number of pages on a list.
    pub fn size(&self, list: usize) -> usize {
        self.list(list).len()
    }

    /// The number of pages on all lists.
    pub fn total(&self) -> usize {
        self.lists.iter().map(Vec::len).sum()
    }

    /// The number of pages with a slot.
    pub fn held(&self) -> usize {
        self.lists
            .iter()
            .flatten()
            .filter(|member| member.slot.is_some())
            .count()
    }

    /// The capacity, as a count.
    pub fn capacity(&self) -> usize {
        self.settings.capacity as usize
    }

    /// Whether every slot is taken.
    pub fn is_full(&self) -> bool {
        self.held() == self.capacity()
    }

    /// Where the page stands, if on any list.
    pub fn find(&self, page: u32) -> Option<Place> {
        for (index, members) in self.lists.iter().enumerate() {
            if let Some(position) = members.iter().position(|member| member.page == page) {
                return Some(Place {
                    list: index + 1,
                    position,
                });
            }
        }
        None
    }

    /// Takes a page off its list; it keeps its entry.
    pub fn take(&mut self, place: Place) -> Member {
        self.list_mut(place.list).remove(place.position)
    }

    /// Takes the back of a list off it; it keeps its entry.
    pub fn take_back(&mut self, list: usize) -> Member {
        self.list_mut(list).pop().expect("a list with a back")
    }

    /// Puts a page at the front of a list.
    pub fn put_front(&mut self, list: usize, member: Member) {
        self.list_mut(list).insert(0, member);
    }

    /// The lowest slot that no page holds.
    pub fn lowest_free_slot(&self) -> u32 {
        let taken: HashSet<u32> = self
            .lists
            .iter()
            .flatten()
            .filter_map(|member| member.slot)
            .collect();
        (0..self.settings.capacity)
            .find(|slot| !taken.contains(slot))
            .expect("a free slot")
    }

    /// The entry in which the page stands, if any.
    pub fn entry_of(&self, page: u32) -> Option<usize> {
        self.table.iter().position(|seat| *seat == Some(page))
    }

    /// Gives a new page the lowest free entry and the front of its chain.
    pub fn seat(&mut self, page: u32) {
        let entry = self
            .table
            .iter()
            .position(Option::is_none)
            .expect("a free entry");
        self.table[entry] = Some(page);
        self.chains[self.settings.bucket_of(page)].insert(0, entry);
    }

    /// Frees the page's entry and takes it off its chain, the rest in order.
    pub fn unseat(&mut self, page: u32) {
        let entry = self.entry_of(page).expect("a page with an entry");
        self.table[entry] = None;
        self.chains[self.settings.bucket_of(page)].retain(|other| *other != entry);
    }
}
