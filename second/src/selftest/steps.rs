//! Single requests of every policy but CLOCK, worked out by hand, for each case that the document tells apart.

use crate::model::{Directory, Member};
use crate::policies::{request, Answer};
use crate::random::Random;
use crate::settings::Settings;

use super::tally::Tally;

/// The pages of each list, front first.
type Lists = &'static [&'static [u32]];

/// The lists and the target before and after a request, and the page it puts out.
struct Step {
    settings: [u32; 4],
    before: (Lists, u32),
    page: u32,
    after: (Lists, u32),
    out: Out,
}

/// Whether a request hits, loads into a free slot, or puts out a page.
#[derive(Clone, Copy, Debug, PartialEq, Eq)]
enum Out {
    Hit,
    Load,
    Swap(u32),
}

/// All steps.
const STEPS: [&[Step]; 7] = [LRU, SEGMENTED, TWO_Q, ARC_HITS, ARC_B1, ARC_B2, ARC_NEW];

/// The requests of LRU.
const LRU: &[Step] = &[
    lru(&[&[1, 2, 3]], 1, &[&[1, 2, 3]], Out::Hit),
    lru(&[&[1, 2, 3]], 2, &[&[2, 1, 3]], Out::Hit),
    lru(&[&[1, 2, 3]], 3, &[&[3, 1, 2]], Out::Hit),
    lru(&[&[1, 2, 3]], 4, &[&[4, 1, 2]], Out::Swap(3)),
    lru(&[&[1, 2]], 4, &[&[4, 1, 2]], Out::Load),
];

/// The requests of the segmented policy.
const SEGMENTED: &[Step] = &[
    segmented(&[&[1, 2], &[3, 4]], 4, &[&[1, 2], &[4, 3]], Out::Hit),
    segmented(&[&[1, 2], &[3, 4]], 2, &[&[4, 1], &[2, 3]], Out::Hit),
    segmented(&[&[1, 2, 3], &[4]], 3, &[&[1, 2], &[3, 4]], Out::Hit),
    segmented(&[&[1, 2], &[3, 4]], 9, &[&[9, 1], &[3, 4]], Out::Swap(2)),
    segmented(&[&[1], &[3, 4]], 9, &[&[9, 1], &[3, 4]], Out::Load),
];

/// The requests of 2Q.
const TWO_Q: &[Step] = &[
    two_q(
        &[&[1], &[2, 3, 4], &[5]],
        4,
        &[&[1], &[4, 2, 3], &[5]],
        Out::Hit,
    ),
    two_q(
        &[&[1, 2, 3], &[4], &[]],
        3,
        &[&[1, 2, 3], &[4], &[]],
        Out::Hit,
    ),
    two_q(
        &[&[1, 2, 3], &[4], &[5, 6]],
        6,
        &[&[1, 2], &[6, 4], &[3, 5]],
        Out::Swap(3),
    ),
    two_q(
        &[&[1, 2], &[3, 4], &[5, 6]],
        5,
        &[&[1, 2], &[5, 3], &[6]],
        Out::Swap(4),
    ),
    two_q(&[&[1], &[], &[5, 6]], 5, &[&[1], &[5], &[6]], Out::Load),
    two_q(
        &[&[1, 2, 3], &[4], &[5, 6]],
        9,
        &[&[9, 1, 2], &[4], &[3, 5]],
        Out::Swap(3),
    ),
    two_q(
        &[&[1, 2, 3], &[4], &[5]],
        9,
        &[&[9, 1, 2], &[4], &[3, 5]],
        Out::Swap(3),
    ),
    two_q(
        &[&[1, 2], &[3, 4], &[5]],
        9,
        &[&[9, 1, 2], &[3], &[5]],
        Out::Swap(4),
    ),
    two_q(
        &[&[1, 2], &[3], &[]],
        9,
        &[&[9, 1, 2], &[3], &[]],
        Out::Load,
    ),
];

/// ARC's hits in T1 and T2.
const ARC_HITS: &[Step] = &[
    arc(
        4,
        (&[&[1, 2], &[3, 4], &[], &[]], 1),
        2,
        (&[&[1], &[2, 3, 4], &[], &[]], 1),
        Out::Hit,
    ),
    arc(
        4,
        (&[&[1, 2], &[3, 4], &[5], &[6]], 1),
        4,
        (&[&[1, 2], &[4, 3], &[5], &[6]], 1),
        Out::Hit,
    ),
];

/// ARC's requests of ghosts in B1: the step of the target, its end, and the new target used.
const ARC_B1: &[Step] = &[
    arc(
        4,
        (&[&[1, 2], &[3, 4], &[5, 6], &[7]], 1),
        6,
        (&[&[1, 2], &[6, 3], &[5], &[4, 7]], 2),
        Out::Swap(4),
    ),
    arc(
        4,
        (&[&[1, 2], &[3, 4], &[5, 6], &[7]], 0),
        6,
        (&[&[1], &[6, 3, 4], &[2, 5], &[7]], 1),
        Out::Swap(2),
    ),
    arc(
        4,
        (&[&[1, 2], &[3, 4], &[5], &[7, 8, 9]], 0),
        5,
        (&[&[1, 2], &[5, 3], &[], &[4, 7, 8, 9]], 3),
        Out::Swap(4),
    ),
    arc(
        5,
        (&[&[1, 2], &[3, 4, 10], &[5, 6], &[7, 8, 9]], 0),
        6,
        (&[&[1], &[6, 3, 4, 10], &[2, 5], &[7, 8, 9]], 1),
        Out::Swap(2),
    ),
    arc(
        4,
        (&[&[1, 2], &[3, 4], &[5], &[]], 4),
        5,
        (&[&[1, 2], &[5, 3], &[], &[4]], 4),
        Out::Swap(4),
    ),
    arc(
        4,
        (&[&[1, 2], &[3, 4], &[5], &[7, 8, 9]], 2),
        5,
        (&[&[1, 2], &[5, 3], &[], &[4, 7, 8, 9]], 4),
        Out::Swap(4),
    ),
    arc(
        4,
        (&[&[], &[1, 2, 3, 4], &[5], &[]], 0),
        5,
        (&[&[], &[5, 1, 2, 3], &[], &[4]], 1),
        Out::Swap(4),
    ),
];

/// ARC's requests of ghosts in B2: the step of the target, its end, the tie, and the new target used.
const ARC_B2: &[Step] = &[
    arc(
        4,
        (&[&[1, 2], &[3, 4], &[5], &[6, 7]], 3),
        7,
        (&[&[1], &[7, 3, 4], &[2, 5], &[6]], 2),
        Out::Swap(2),
    ),
    arc(
        4,
        (&[&[1, 2], &[3, 4], &[5], &[6, 7]], 4),
        7,
        (&[&[1, 2], &[7, 3], &[5], &[4, 6]], 3),
        Out::Swap(4),
    ),
    arc(
        4,
        (&[&[1], &[2, 3, 4], &[], &[5]], 2),
        5,
        (&[&[], &[5, 2, 3, 4], &[1], &[]], 1),
        Out::Swap(1),
    ),
    arc(
        4,
        (&[&[1], &[2, 3, 4], &[5, 6, 7], &[8]], 4),
        8,
        (&[&[], &[8, 2, 3, 4], &[1, 5, 6, 7], &[]], 1),
        Out::Swap(1),
    ),
    arc(
        4,
        (&[&[1], &[2, 3, 4], &[5, 6, 7], &[8]], 1),
        8,
        (&[&[], &[8, 2, 3, 4], &[1, 5, 6, 7], &[]], 0),
        Out::Swap(1),
    ),
    arc(
        5,
        (&[&[1], &[2, 3, 4, 5], &[6, 7, 8], &[9, 10]], 3),
        9,
        (&[&[1], &[9, 2, 3, 4], &[6, 7, 8], &[5, 10]], 2),
        Out::Swap(5),
    ),
    arc(
        4,
        (&[&[], &[1, 2, 3, 4], &[5], &[6]], 0),
        6,
        (&[&[], &[6, 1, 2, 3], &[5], &[4]], 0),
        Out::Swap(4),
    ),
    arc(
        4,
        (&[&[1, 2, 3, 4], &[], &[], &[5, 6]], 4),
        6,
        (&[&[1, 2, 3], &[6], &[4], &[5]], 3),
        Out::Swap(4),
    ),
];

/// ARC's requests of pages it doesn't know.
const ARC_NEW: &[Step] = &[
    arc(
        4,
        (&[&[1, 2], &[3, 4], &[5, 6], &[7]], 1),
        9,
        (&[&[9, 1], &[3, 4], &[2, 5], &[7]], 1),
        Out::Swap(2),
    ),
    arc(
        4,
        (&[&[1, 2], &[3, 4], &[5, 6], &[7]], 2),
        9,
        (&[&[9, 1, 2], &[3], &[5], &[4, 7]], 2),
        Out::Swap(4),
    ),
    arc(
        4,
        (&[&[1, 2, 3, 4], &[], &[], &[5, 6]], 0),
        9,
        (&[&[9, 1, 2, 3], &[], &[], &[5, 6]], 0),
        Out::Swap(4),
    ),
    arc(
        4,
        (&[&[1], &[2, 3, 4], &[5], &[6, 7, 8]], 0),
        9,
        (&[&[9], &[2, 3, 4], &[1, 5], &[6, 7]], 0),
        Out::Swap(1),
    ),
    arc(
        4,
        (&[&[1], &[2, 3, 4], &[5], &[6, 7]], 0),
        9,
        (&[&[9], &[2, 3, 4], &[1, 5], &[6, 7]], 0),
        Out::Swap(1),
    ),
    arc(
        4,
        (&[&[1], &[2, 3, 4], &[], &[]], 1),
        9,
        (&[&[9, 1], &[2, 3], &[], &[4]], 1),
        Out::Swap(4),
    ),
    arc(
        4,
        (&[&[1], &[2], &[], &[]], 2),
        9,
        (&[&[9, 1], &[2], &[], &[]], 2),
        Out::Load,
    ),
];

/// A request of LRU with capacity 3.
const fn lru(before: Lists, page: u32, after: Lists, out: Out) -> Step {
    step([1, 3, 0, 0], (before, 0), page, (after, 0), out)
}

/// A request of the segmented policy with capacity 4 and room for 2 in Q.
const fn segmented(before: Lists, page: u32, after: Lists, out: Out) -> Step {
    step([3, 4, 2, 0], (before, 0), page, (after, 0), out)
}

/// A request of 2Q with capacity 4, Kin 2 and Kout 2.
const fn two_q(before: Lists, page: u32, after: Lists, out: Out) -> Step {
    step([4, 4, 2, 2], (before, 0), page, (after, 0), out)
}

/// A request of ARC, with its target before and after.
const fn arc(
    capacity: u32,
    before: (Lists, u32),
    page: u32,
    after: (Lists, u32),
    out: Out,
) -> Step {
    step([5, capacity, 0, 0], before, page, after, out)
}

/// A request with all that is checked of it.
const fn step(
    settings: [u32; 4],
    before: (Lists, u32),
    page: u32,
    after: (Lists, u32),
    out: Out,
) -> Step {
    Step {
        settings,
        before,
        page,
        after,
        out,
    }
}

/// Runs all steps.
pub fn run(tally: &mut Tally, _random: &mut Random) -> String {
    let steps = || STEPS.into_iter().flatten();
    for step in steps() {
        check(tally, step);
    }
    format!("{} requests worked out by hand", steps().count())
}

/// Does one step and checks the lists, the target and the answer.
fn check(tally: &mut Tally, step: &Step) {
    let mut directory = built(step.settings, step.before);
    let expected = expected_answer(step, &directory);
    let answer = request(&mut directory, step.page);
    let what = format!(
        "{:?} from {:?}, page {}",
        step.settings, step.before, step.page
    );
    let (lists, target) = step.after;
    let lists: Vec<Vec<u32>> = lists.iter().map(|pages| pages.to_vec()).collect();
    tally.equal(&what, (pages(&directory), directory.dial), (lists, target));
    tally.equal(&what, Some(answer), expected);
}

/// The pages of each list of a directory, front first.
fn pages(directory: &Directory) -> Vec<Vec<u32>> {
    let pages = |members: &Vec<Member>| members.iter().map(|member| member.page).collect();
    directory.lists.iter().map(pages).collect()
}

/// The answer that a step is to have, from the slots before it; nothing if it names a page without a slot.
fn expected_answer(step: &Step, before: &Directory) -> Option<Answer> {
    let cleared = 0;
    match step.out {
        Out::Hit => slot(before, step.page).map(|slot| Answer::Hit { slot, cleared }),
        Out::Load => {
            let slot = before.held() as u32;
            Some(Answer::Loaded { slot, cleared })
        }
        Out::Swap(out) => slot(before, out).map(|slot| Answer::Swapped { slot, out, cleared }),
    }
}

/// The slot of a page, if it holds one.
fn slot(directory: &Directory, page: u32) -> Option<u32> {
    let mut members = directory.lists.iter().flatten();
    members.find(|member| member.page == page)?.slot
}

/// The directory with the given lists and target; slots and entries go up from the last list to the first.
fn built(settings: [u32; 4], (lists, target): (Lists, u32)) -> Directory {
    let [policy, capacity, first, second] = settings;
    let settings =
        Settings::checked(policy, capacity, first, second).expect("settings that form accepts");
    let mut directory = Directory::fresh(settings);
    directory.dial = target;
    for (index, pages) in lists.iter().enumerate().rev() {
        for page in pages.iter().rev() {
            let slot = (!settings.policy.is_ghost_list(index + 1)).then(|| directory.held() as u32);
            directory.seat(*page);
            directory.put_front(
                index + 1,
                Member {
                    page: *page,
                    slot,
                    mark: false,
                },
            );
        }
    }
    directory
}
