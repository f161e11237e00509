//! Every refusal of the calls over words, in its order, with nothing changed, and a few answers beside.

use crate::calls::{
    audit, curve, form, look, replay, report, request, slot_for, words_for, Counts, Looked,
};
use crate::random::Random;
use crate::refusal::Refusal::{self, CapacityRange, SettingRange, UnknownPolicy};
use crate::settings::NONE;

use super::bench::formed;
use super::tally::Tally;

/// Settings that form refuses, and why.
const REFUSED_SETTINGS: &[([u32; 4], Refusal)] = &[
    ([0, 0, 9, 9], UnknownPolicy),
    ([6, 4, 0, 0], UnknownPolicy),
    ([NONE, NONE, NONE, NONE], UnknownPolicy),
    ([1, 0, 9, 9], CapacityRange),
    ([2, 513, 9, 9], CapacityRange),
    ([5, NONE, 0, 0], CapacityRange),
    ([3, 1, 1, 0], CapacityRange),
    ([4, 1, 1, 1], CapacityRange),
    ([1, 4, 1, 0], SettingRange),
    ([1, 4, 0, 1], SettingRange),
    ([2, 4, 1, 0], SettingRange),
    ([2, 4, 0, 1], SettingRange),
    ([5, 4, 1, 0], SettingRange),
    ([5, 4, 0, 1], SettingRange),
    ([3, 4, 0, 0], SettingRange),
    ([3, 4, 4, 0], SettingRange),
    ([3, 4, 3, 1], SettingRange),
    ([4, 4, 0, 1], SettingRange),
    ([4, 4, 4, 1], SettingRange),
    ([4, 4, 1, 0], SettingRange),
    ([4, 4, 1, 5], SettingRange),
    ([4, 4, NONE, NONE], SettingRange),
];

/// Runs all refusal checks.
pub fn run(tally: &mut Tally, _random: &mut Random) -> String {
    forms(tally);
    audits(tally);
    unsound_requests(tally);
    slots(tally);
    looks(tally);
    fresh_lists(tally);
    reports(tally);
    replays(tally);
    curves(tally);
    "form, request, look, report, replay, curve".to_string()
}

/// Form's refusals and the lengths asked for.
fn forms(tally: &mut Tally) {
    for ([policy, capacity, first, second], refusal) in REFUSED_SETTINGS {
        let mut words = vec![5; 30];
        tally.equal(
            "form refused",
            form(*policy, *capacity, *first, *second, &mut words),
            Err(*refusal),
        );
        tally.equal("words of a refused form", words, vec![5; 30]);
        tally.equal(
            "length refused",
            words_for(*policy, *capacity, *first, *second),
            Err(*refusal),
        );
    }
    for length in [0, 24, 26] {
        let mut words = vec![5; length];
        tally.equal(
            "form's length",
            form(1, 1, 0, 0, &mut words),
            Err(Refusal::WordsLength),
        );
        tally.equal("words of a wrong length", words, vec![5; length]);
    }
}

/// Audit of an empty slice.
fn audits(tally: &mut Tally) {
    tally.equal("an empty slice", audit(&[]), false);
}

/// Requests of unsound words, and their slots alone.
fn unsound_requests(tally: &mut Tally) {
    let mut unsound = formed(1, 2, 0, 0);
    unsound[15] = 1;
    let before = unsound.clone();
    for page in [3, NONE] {
        tally.equal(
            "unsound request",
            request(&mut unsound, page),
            Err(Refusal::Unsound),
        );
        tally.equal(
            "unsound slot",
            slot_for(&mut unsound, page),
            Err(Refusal::Unsound),
        );
    }
    tally.equal("unsound words after requests", unsound, before);
    tally.equal(
        "request of no words",
        request(&mut [], 1),
        Err(Refusal::Unsound),
    );
}

/// Requests of what is no page, and the slots alone of pages that are loaded, hit and swapped in.
fn slots(tally: &mut Tally) {
    let mut words = formed(1, 2, 0, 0);
    let before = words.clone();
    tally.equal(
        "request of NONE",
        request(&mut words, NONE),
        Err(Refusal::NotAPage),
    );
    tally.equal(
        "slot of NONE",
        slot_for(&mut words, NONE),
        Err(Refusal::NotAPage),
    );
    tally.equal("words after NONE", &words, &before);
    tally.equal("slot of a load", slot_for(&mut words, NONE - 1), Ok(0));
    tally.equal("slot of another load", slot_for(&mut words, 0), Ok(1));
    tally.equal("slot of a hit", slot_for(&mut words, NONE - 1), Ok(0));
    tally.equal("slot of a swap", slot_for(&mut words, 5), Ok(1));
}

/// Answers and refusals of look.
fn looks(tally: &mut Tally) {
    let mut unsound = formed(5, 2, 0, 0);
    unsound[6] = 3;
    tally.equal("unsound look", look(&unsound, NONE), Err(Refusal::Unsound));
    let mut words = formed(5, 2, 0, 0);
    tally.equal("look at NONE", look(&words, NONE), Err(Refusal::NotAPage));
    tally.equal(
        "replay before looks",
        replay(&mut words, &[1, 2, 1, 3]).map(|counts| counts.swaps),
        Ok(1),
    );
    tally.equal("look at a held page", look(&words, 1), Ok(Looked::Held(0)));
    tally.equal("look at the new page", look(&words, 3), Ok(Looked::Held(1)));
    tally.equal("look at a ghost", look(&words, 2), Ok(Looked::Remembered));
    tally.equal(
        "look at an absent page",
        look(&words, 4),
        Ok(Looked::Absent),
    );
}

/// Reports of every list of fresh directories, and of lists that the policy has not.
fn fresh_lists(tally: &mut Tally) {
    let lists_of = [
        (formed(1, 2, 0, 0), 1),
        (formed(2, 2, 0, 0), 1),
        (formed(3, 2, 1, 0), 2),
        (formed(4, 2, 1, 1), 3),
        (formed(5, 2, 0, 0), 4),
    ];
    for (words, lists) in lists_of {
        for list in [0, 1, 2, 3, 4, 5, NONE] {
            let expected = if (1..=lists).contains(&list) {
                Ok(0)
            } else {
                Err(Refusal::UnknownList)
            };
            tally.equal(
                "report of a fresh list",
                report(&words, list, &mut []),
                expected,
            );
        }
    }
}

/// A report of CLOCK's list, and each refusal of report.
fn reports(tally: &mut Tally) {
    let mut words = formed(2, 4, 0, 0);
    tally.equal(
        "replay before reports",
        replay(&mut words, &[9, 8, 7, 8]).map(|counts| counts.hits),
        Ok(1),
    );
    let mut result = [5; 4];
    tally.equal(
        "report too short",
        report(&words, 1, &mut result[..2]),
        Err(Refusal::BufferTooShort),
    );
    tally.equal(
        "report of no list",
        report(&words, 2, &mut result[..2]),
        Err(Refusal::UnknownList),
    );
    words[15] = 1;
    tally.equal(
        "report of unsound words",
        report(&words, 9, &mut []),
        Err(Refusal::Unsound),
    );
    tally.equal("result after refusals", result, [5; 4]);
    words[15] = 0;
    tally.equal("report", report(&words, 1, &mut result), Ok(3));
    tally.equal("result of the report, in slot order", result, [9, 8, 7, 5]);
}

/// Refusals of replay.
fn replays(tally: &mut Tally) {
    let too_long = vec![NONE; 65_536];
    let longest = vec![4; 65_535];
    let mut words = formed(3, 2, 1, 0);
    let before = words.clone();
    tally.equal(
        "replay too long",
        replay(&mut words, &too_long),
        Err(Refusal::TooLong),
    );
    tally.equal(
        "replay with NONE last",
        replay(&mut words, &[1, 2, 3, NONE]),
        Err(Refusal::NotAPage),
    );
    tally.equal("words after refused replays", &words, &before);
    tally.equal(
        "the longest replay",
        replay(&mut words, &longest),
        Ok(Counts {
            hits: 65_534,
            loads: 1,
            swaps: 0,
        }),
    );
    words[15] = 1;
    tally.equal(
        "replay of unsound words",
        replay(&mut words, &too_long),
        Err(Refusal::Unsound),
    );
}

/// Refusals of the curve.
fn curves(tally: &mut Tally) {
    let too_long = vec![NONE; 65_536];
    let rows: [(u32, &[u32], usize, usize, Refusal); 7] = [
        (0, &too_long, 0, 0, Refusal::CapacityRange),
        (513, &too_long, 600, 600, Refusal::CapacityRange),
        (3, &too_long, 0, 0, Refusal::TooLong),
        (3, &[1, NONE], 2, 2, Refusal::NotAPage),
        (3, &[1, 2], 2, 3, Refusal::BufferTooShort),
        (3, &[1, 2], 3, 2, Refusal::BufferTooShort),
        (512, &[], 511, 512, Refusal::BufferTooShort),
    ];
    for (largest, trace, result_length, work_length, refusal) in rows {
        let (mut result, mut work) = (vec![5; result_length], vec![6; work_length]);
        tally.equal(
            "curve refused",
            curve(largest, trace, &mut result, &mut work),
            Err(refusal),
        );
        tally.equal("result of a refused curve", result, vec![5; result_length]);
        tally.equal("work of a refused curve", work, vec![6; work_length]);
    }
}
