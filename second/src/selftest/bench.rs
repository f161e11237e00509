//! The bench rows S1 to S12 and the other numbers that the document gives.

use crate::calls::{curve, form, replay, report, request, words_for, Counts};
use crate::policies::Answer;
use crate::program;
use crate::random::Random;
use crate::refusal::Refusal;
use crate::settings::{bucket, NONE};
use crate::text::read;

use super::tally::Tally;

/// The word of ARC's target and CLOCK's hand.
const DIAL: usize = 6;

/// Runs every bench row and example.
pub fn run(tally: &mut Tally, _random: &mut Random) -> String {
    row_1(tally);
    row_2(tally);
    row_3(tally);
    row_4(tally);
    row_5(tally);
    row_6(tally);
    row_7(tally);
    row_8(tally);
    row_9(tally);
    row_10(tally);
    row_11(tally);
    row_12(tally);
    words_after_row_1(tally);
    buckets(tally);
    lengths(tally);
    program_example(tally);
    "rows S1 to S12, words, buckets, lengths, program".to_string()
}

/// A fresh directory's words.
pub fn formed(policy: u32, capacity: u32, first: u32, second: u32) -> Vec<u32> {
    let length = words_for(policy, capacity, first, second).expect("settings that form accepts");
    let mut words = vec![77; length as usize];
    form(policy, capacity, first, second, &mut words).expect("words of the right length");
    words
}

/// The pages of a list.
pub fn listed(words: &[u32], list: u32) -> Vec<u32> {
    let mut result = vec![0; words.len()];
    let count = report(words, list, &mut result).expect("a list of a sound directory");
    result.truncate(count as usize);
    result
}

/// The answers to some requests in turn.
fn asked(words: &mut [u32], pages: &[u32]) -> Vec<Answer> {
    pages
        .iter()
        .map(|page| request(words, *page).expect("an answer"))
        .collect()
}

/// A hit without cleared marks.
fn hit(slot: u32) -> Answer {
    Answer::Hit { slot, cleared: 0 }
}

/// A load without cleared marks.
fn loaded(slot: u32) -> Answer {
    Answer::Loaded { slot, cleared: 0 }
}

/// A swap with its cleared marks.
fn swapped(slot: u32, out: u32, cleared: u32) -> Answer {
    Answer::Swapped { slot, out, cleared }
}

/// S1: LRU.
fn row_1(tally: &mut Tally) {
    let mut words = formed(1, 2, 0, 0);
    let answers = asked(&mut words, &[7, 9, 7, 5]);
    tally.equal(
        "S1 answers",
        answers,
        vec![loaded(0), loaded(1), hit(0), swapped(1, 9, 0)],
    );
    tally.equal("S1 list", listed(&words, 1), vec![5, 7]);
}

/// S2: the curve.
fn row_2(tally: &mut Tally) {
    let (mut result, mut work) = ([66; 6], [66; 6]);
    let answer = curve(
        5,
        &[1, 2, 3, 4, 1, 2, 5, 1, 2, 3, 4, 5],
        &mut result,
        &mut work,
    );
    tally.equal("S2 answer", answer, Ok(()));
    tally.equal("S2 hits", result, [0, 0, 2, 4, 7, 66]);
    tally.equal("S2 work", work, [5, 4, 3, 2, 1, 66]);
}

/// S3: CLOCK clears one mark.
fn row_3(tally: &mut Tally) {
    let mut words = formed(2, 3, 0, 0);
    let answers = asked(&mut words, &[1, 2, 3, 1, 4, 5]);
    let expected = vec![
        loaded(0),
        loaded(1),
        loaded(2),
        hit(0),
        swapped(1, 2, 1),
        swapped(2, 3, 0),
    ];
    tally.equal("S3 answers", answers, expected);
    tally.equal("S3 hand", words[DIAL], 0);
}

/// S4: CLOCK clears all marks.
fn row_4(tally: &mut Tally) {
    let mut words = formed(2, 2, 0, 0);
    let answers = asked(&mut words, &[1, 2, 1, 2, 3]);
    tally.equal(
        "S4 answers",
        answers,
        vec![loaded(0), loaded(1), hit(0), hit(1), swapped(0, 1, 2)],
    );
    tally.equal("S4 hand", words[DIAL], 1);
}

/// S5: the segmented policy.
fn row_5(tally: &mut Tally) {
    let mut words = formed(3, 3, 1, 0);
    let answers = asked(&mut words, &[1, 2, 1, 2, 3, 4]);
    tally.equal("S5 last answer", answers[5], swapped(0, 1, 0));
    tally.equal("S5 P", listed(&words, 1), vec![4, 3]);
    tally.equal("S5 Q", listed(&words, 2), vec![2]);
}

/// S6: 2Q.
fn row_6(tally: &mut Tally) {
    let mut words = formed(4, 3, 1, 2);
    let counts = replay(&mut words, &[1, 2, 3, 4, 1, 4, 5, 6, 4, 7]);
    tally.equal(
        "S6 counts",
        counts,
        Ok(Counts {
            hits: 1,
            loads: 3,
            swaps: 6,
        }),
    );
    tally.equal("S6 A1in", listed(&words, 1), vec![7, 6]);
    tally.equal("S6 Am", listed(&words, 2), vec![4]);
    tally.equal("S6 A1out", listed(&words, 3), vec![5, 3]);
}

/// S7: ARC with ghosts and a tie.
fn row_7(tally: &mut Tally) {
    let mut words = formed(5, 2, 0, 0);
    asked(&mut words, &[1, 2, 1, 3, 2]);
    arc_state(
        tally,
        "S7 first",
        &words,
        [vec![3], vec![2], vec![], vec![1]],
        1,
    );
    asked(&mut words, &[1]);
    arc_state(
        tally,
        "S7 then 1",
        &words,
        [vec![], vec![1, 2], vec![3], vec![]],
        0,
    );
    asked(&mut words, &[4]);
    arc_state(
        tally,
        "S7 then 4",
        &words,
        [vec![4], vec![1], vec![3], vec![2]],
        0,
    );
    asked(&mut words, &[5]);
    arc_state(
        tally,
        "S7 then 5",
        &words,
        [vec![5], vec![1], vec![4], vec![2]],
        0,
    );
}

/// S8: ARC drops without a ghost when T1 is full.
fn row_8(tally: &mut Tally) {
    let mut words = formed(5, 2, 0, 0);
    asked(&mut words, &[1, 2, 3]);
    arc_state(tally, "S8", &words, [vec![3, 2], vec![], vec![], vec![]], 0);
}

/// Checks ARC's four lists and its target.
fn arc_state(tally: &mut Tally, what: &str, words: &[u32], lists: [Vec<u32>; 4], target: u32) {
    let seen: Vec<Vec<u32>> = (1..=4).map(|list| listed(words, list)).collect();
    tally.equal(what, seen, lists.to_vec());
    tally.equal(what, words[DIAL], target);
}

/// S9: an empty trace.
fn row_9(tally: &mut Tally) {
    let mut words = formed(5, 4, 0, 0);
    let before = words.clone();
    tally.equal("S9 counts", replay(&mut words, &[]), Ok(Counts::default()));
    tally.equal("S9 words", words, before);
    let (mut result, mut work) = ([66; 3], [66; 3]);
    tally.equal("S9 curve", curve(3, &[], &mut result, &mut work), Ok(()));
    tally.equal("S9 hits", result, [0; 3]);
    tally.equal("S9 work", work, [NONE; 3]);
}

/// S10: CLOCK with one slot.
fn row_10(tally: &mut Tally) {
    let answers = asked(&mut formed(2, 1, 0, 0), &[8, 8, 9]);
    tally.equal(
        "S10 answers",
        answers,
        vec![loaded(0), hit(0), swapped(0, 8, 1)],
    );
}

/// S11: the ends of the capacity's range.
fn row_11(tally: &mut Tally) {
    for policy in [1, 2, 5] {
        tally.check(words_for(policy, 512, 0, 0).is_ok(), || {
            format!("S11 policy {policy}, capacity 512")
        });
        tally.equal(
            "S11 capacity 513",
            words_for(policy, 513, 0, 0),
            Err(Refusal::CapacityRange),
        );
    }
    let mut words = vec![0; words_for(3, 512, 511, 0).expect("a length") as usize];
    tally.equal(
        "S11 segmented 512",
        form(3, 512, 511, 0, &mut words),
        Ok(()),
    );
    tally.equal(
        "S11 segmented 1",
        form(3, 1, 1, 0, &mut []),
        Err(Refusal::CapacityRange),
    );
}

/// S12: an empty text.
fn row_12(tally: &mut Tally) {
    tally.equal("S12", read(b"", &mut []), Err(Refusal::WrongLine(1)));
}

/// The words after S1, worked out by hand from the layout.
fn words_after_row_1(tally: &mut Tally) {
    let mut words = formed(1, 2, 0, 0);
    asked(&mut words, &[7, 9, 7, 5]);
    let header = [
        1, 2, 2, 1, 0, 0, 0, 1, 0, NONE, NONE, NONE, NONE, NONE, NONE, 0,
    ];
    let entry_of_7 = [7, 1, 0, 1, NONE, NONE, 0, 0];
    let entry_of_5 = [5, 1, 1, NONE, 0, 0, 0, 0];
    let buckets = [1, NONE];
    let expected = [&header[..], &entry_of_7[..], &entry_of_5[..], &buckets[..]].concat();
    tally.equal("words after S1", words, expected);
}

/// The example of buckets, and no shift by 32 when k is 0.
fn buckets(tally: &mut Tally) {
    let seen: Vec<usize> = (0..4).map(|page| bucket(page, 3)).collect();
    tally.equal("buckets for k = 3", seen, vec![0, 4, 1, 6]);
    tally.equal("bucket for k = 0", bucket(3, 0), 0);
    tally.equal("bucket for k = 10", bucket(1, 10), 2_654_435_769 >> 22);
}

/// The example lengths, and a few by hand.
fn lengths(tally: &mut Tally) {
    tally.equal("LRU, C 1", words_for(1, 1, 0, 0), Ok(25));
    tally.equal("ARC, C 512", words_for(5, 512, 0, 0), Ok(9_232));
    tally.equal("2Q, C 3, Kout 2", words_for(4, 3, 1, 2), Ok(16 + 40 + 8));
    tally.equal("segmented, C 4", words_for(3, 4, 3, 0), Ok(16 + 32 + 4));
    tally.equal("CLOCK, C 5", words_for(2, 5, 0, 0), Ok(16 + 40 + 8));
    tally.equal(
        "2Q, C 512, Kout 1",
        words_for(4, 512, 511, 1),
        Ok(16 + 8 * 513 + 1024),
    );
}

/// The replay program's whole example, and a refusal of each of its steps.
fn program_example(tally: &mut Tally) {
    let example = "policy=1/capacity=2/first=0/second=0/count=4/page=7/page=9/page=7/page=5/";
    program_row(tally, example, "refused=0/line=0/hits=1/loads=2/swaps=1/");
    program_row(tally, "", "refused=10/line=1/hits=0/loads=0/swaps=0/");
    let wrong_policy = "policy=6/capacity=0/first=0/second=0/count=0/";
    program_row(
        tally,
        wrong_policy,
        "refused=1/line=0/hits=0/loads=0/swaps=0/",
    );
    let no_page = "policy=1/capacity=1/first=0/second=0/count=1/page=4294967295/";
    program_row(tally, no_page, "refused=6/line=0/hits=0/loads=0/swaps=0/");
    let no_room = "policy=1/capacity=1/first=0/second=0/count=9363/";
    program_row(tally, no_room, "refused=8/line=0/hits=0/loads=0/swaps=0/");
    let no_pages = "policy=1/capacity=1/first=0/second=0/count=9362/";
    program_row(tally, no_pages, "refused=10/line=6/hits=0/loads=0/swaps=0/");
    program_row(
        tally,
        &"/".repeat(65_536),
        "refused=7/line=0/hits=0/loads=0/swaps=0/",
    );
}

/// Checks the replay program on one input, `/` standing for byte 10.
fn program_row(tally: &mut Tally, input: &str, expected: &str) {
    let output = program::run(input.replace('/', "\n").as_bytes());
    tally.equal(
        "replay program",
        output.replace('\n', "/").as_str(),
        expected,
    );
}
