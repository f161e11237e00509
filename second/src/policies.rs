//! What a request does, for each of the five policies.

use crate::model::{Directory, Member, Place};
use crate::settings::Policy;

/// LRU's only list.
const RECENT: usize = 1;
/// CLOCK's only list, in slot order.
const RING: usize = 1;
/// The segmented policy's P.
const PROBATION: usize = 1;
/// The segmented policy's Q.
const PROTECTED: usize = 2;
/// 2Q's list of pages asked for once.
const A1_IN: usize = 1;
/// 2Q's list of pages asked for again.
const AM: usize = 2;
/// 2Q's ghosts.
const A1_OUT: usize = 3;
/// ARC's list of pages asked for once.
const T1: usize = 1;
/// ARC's list of pages asked for again.
const T2: usize = 2;
/// ARC's ghosts of T1.
const B1: usize = 3;
/// ARC's ghosts of T2.
const B2: usize = 4;

/// The answer to a request.
#[derive(Clone, Copy, Debug, PartialEq, Eq)]
pub enum Answer {
    Hit { slot: u32, cleared: u32 },
    Loaded { slot: u32, cleared: u32 },
    Swapped { slot: u32, out: u32, cleared: u32 },
}

impl Answer {
    /// The slot of the page asked for.
    pub fn slot(self) -> u32 {
        match self {
            Answer::Hit { slot, .. }
            | Answer::Loaded { slot, .. }
            | Answer::Swapped { slot, .. } => slot,
        }
    }
}

/// A page that lost its slot, and that slot.
struct PutOut {
    page: u32,
    slot: u32,
}

/// Does one request by the directory's policy.
pub fn request(directory: &mut Directory, page: u32) -> Answer {
    match directory.settings.policy {
        Policy::Lru => lru(directory, page),
        Policy::Clock => clock(directory, page),
        Policy::Segmented => segmented(directory, page),
        Policy::TwoQ => two_q(directory, page),
        Policy::Arc => arc(directory, page),
    }
}

/// LRU's request.
fn lru(directory: &mut Directory, page: u32) -> Answer {
    if let Some(place) = directory.find(page) {
        return hit_to_front(directory, place, RECENT);
    }
    let put_out = directory.is_full().then(|| drop_back(directory, RECENT));
    load(directory, RECENT, page, put_out)
}

/// CLOCK's request.
fn clock(directory: &mut Directory, page: u32) -> Answer {
    if let Some(place) = directory.find(page) {
        directory.list_mut(RING)[place.position].mark = true;
        return Answer::Hit {
            slot: place.position as u32,
            cleared: 0,
        };
    }
    if !directory.is_full() {
        let slot = directory.lowest_free_slot();
        directory.seat(page);
        directory.list_mut(RING).push(Member {
            page,
            slot: Some(slot),
            mark: false,
        });
        return Answer::Loaded { slot, cleared: 0 };
    }
    let cleared = sweep(directory);
    let slot = directory.dial;
    let out = directory.list(RING)[slot as usize].page;
    directory.unseat(out);
    directory.seat(page);
    directory.list_mut(RING)[slot as usize] = Member {
        page,
        slot: Some(slot),
        mark: false,
    };
    advance_hand(directory);
    Answer::Swapped { slot, out, cleared }
}

/// Moves CLOCK's hand to the first slot without a mark, and counts the marks cleared.
fn sweep(directory: &mut Directory) -> u32 {
    let mut cleared = 0;
    loop {
        let hand = directory.dial as usize;
        if !directory.list(RING)[hand].mark {
            return cleared;
        }
        directory.list_mut(RING)[hand].mark = false;
        cleared += 1;
        advance_hand(directory);
    }
}

/// Moves CLOCK's hand on by one slot.
fn advance_hand(directory: &mut Directory) {
    directory.dial = (directory.dial + 1) % directory.settings.capacity;
}

/// The segmented policy's request.
fn segmented(directory: &mut Directory, page: u32) -> Answer {
    if let Some(place) = directory.find(page) {
        let answer = hit_to_front(directory, place, PROTECTED);
        if directory.size(PROTECTED) > directory.settings.first as usize {
            let spilled = directory.take_back(PROTECTED);
            directory.put_front(PROBATION, spilled);
        }
        return answer;
    }
    let put_out = directory.is_full().then(|| drop_back(directory, PROBATION));
    load(directory, PROBATION, page, put_out)
}

/// 2Q's request.
fn two_q(directory: &mut Directory, page: u32) -> Answer {
    match directory.find(page) {
        Some(place) if place.list == AM => hit_to_front(directory, place, AM),
        Some(place) if place.list == A1_IN => Answer::Hit {
            slot: slot_of(&directory.list(A1_IN)[place.position]),
            cleared: 0,
        },
        Some(place) => {
            directory.take(place);
            let put_out = two_q_room(directory);
            load(directory, AM, page, put_out)
        }
        None => {
            let put_out = two_q_room(directory);
            load(directory, A1_IN, page, put_out)
        }
    }
}

/// Makes room for a page in 2Q.
fn two_q_room(directory: &mut Directory) -> Option<PutOut> {
    if !directory.is_full() {
        return None;
    }
    if directory.size(A1_IN) <= directory.settings.first as usize {
        return Some(drop_back(directory, AM));
    }
    let put_out = demote_back(directory, A1_IN, A1_OUT);
    if directory.size(A1_OUT) > directory.settings.second as usize {
        forget_back(directory, A1_OUT);
    }
    Some(put_out)
}

/// ARC's request.
fn arc(directory: &mut Directory, page: u32) -> Answer {
    match directory.find(page) {
        Some(place) if place.list == B1 => {
            directory.dial = raised_target(directory);
            arc_recall(directory, place)
        }
        Some(place) if place.list == B2 => {
            directory.dial = lowered_target(directory);
            arc_recall(directory, place)
        }
        Some(place) => hit_to_front(directory, place, T2),
        None => {
            let put_out = arc_room(directory);
            load(directory, T1, page, put_out)
        }
    }
}

/// ARC's target after a page was found in B1.
fn raised_target(directory: &Directory) -> u32 {
    let step = if directory.size(B1) >= directory.size(B2) {
        1
    } else {
        directory.size(B2) / directory.size(B1)
    };
    directory
        .settings
        .capacity
        .min(directory.dial + step as u32)
}

/// ARC's target after a page was found in B2.
fn lowered_target(directory: &Directory) -> u32 {
    let step = if directory.size(B2) >= directory.size(B1) {
        1
    } else {
        directory.size(B1) / directory.size(B2)
    };
    directory.dial.saturating_sub(step as u32)
}

/// Brings an ARC ghost back to the front of T2, the target being new already.
fn arc_recall(directory: &mut Directory, place: Place) -> Answer {
    let ghost = directory.take(place);
    let put_out = arc_replace(directory, place.list == B2);
    load(directory, T2, ghost.page, Some(put_out))
}

/// Makes room for a page that ARC doesn't know.
fn arc_room(directory: &mut Directory) -> Option<PutOut> {
    let capacity = directory.capacity();
    if directory.size(T1) + directory.size(B1) == capacity {
        if directory.size(T1) == capacity {
            return Some(drop_back(directory, T1));
        }
        forget_back(directory, B1);
        return Some(arc_replace(directory, false));
    }
    if directory.total() == 2 * capacity {
        forget_back(directory, B2);
    }
    directory.is_full().then(|| arc_replace(directory, false))
}

/// ARC's replace: puts out the back of T1 or of T2 and remembers it.
fn arc_replace(directory: &mut Directory, asked_in_b2: bool) -> PutOut {
    let size = directory.size(T1);
    let target = directory.dial as usize;
    if size > 0 && (size > target || (asked_in_b2 && size == target)) {
        demote_back(directory, T1, B1)
    } else {
        demote_back(directory, T2, B2)
    }
}

/// The slot of a held page.
fn slot_of(member: &Member) -> u32 {
    member.slot.expect("a held page")
}

/// A hit on a page that goes to the front of a list.
fn hit_to_front(directory: &mut Directory, place: Place, list: usize) -> Answer {
    let member = directory.take(place);
    let slot = slot_of(&member);
    directory.put_front(list, member);
    Answer::Hit { slot, cleared: 0 }
}

/// Puts out and removes the back of a list.
fn drop_back(directory: &mut Directory, list: usize) -> PutOut {
    let member = directory.take_back(list);
    directory.unseat(member.page);
    PutOut {
        page: member.page,
        slot: slot_of(&member),
    }
}

/// Puts out the back of a list and remembers it at the front of a ghost list.
fn demote_back(directory: &mut Directory, list: usize, ghosts: usize) -> PutOut {
    let member = directory.take_back(list);
    directory.put_front(
        ghosts,
        Member {
            page: member.page,
            slot: None,
            mark: false,
        },
    );
    PutOut {
        page: member.page,
        slot: slot_of(&member),
    }
}

/// Removes the back of a ghost list.
fn forget_back(directory: &mut Directory, ghosts: usize) {
    let ghost = directory.take_back(ghosts);
    directory.unseat(ghost.page);
}

/// Loads a page at the front of a list; a ghost taken off its list still has its entry.
fn load(directory: &mut Directory, list: usize, page: u32, put_out: Option<PutOut>) -> Answer {
    let slot = put_out
        .as_ref()
        .map_or_else(|| directory.lowest_free_slot(), |out| out.slot);
    if directory.entry_of(page).is_none() {
        directory.seat(page);
    }
    directory.put_front(
        list,
        Member {
            page,
            slot: Some(slot),
            mark: false,
        },
    );
    match put_out {
        Some(out) => Answer::Swapped {
            slot,
            out: out.page,
            cleared: 0,
        },
        None => Answer::Loaded { slot, cleared: 0 },
    }
}
