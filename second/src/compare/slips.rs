//! Slips that can be planted in what the model expects, one at a time, to see that a comparison catches each.

use crate::audit::first_broken_rule;
use crate::calls::words_for;
use crate::settings::{LONGEST, NONE};
use crate::text;

use super::call::{widened, Call, Curve, Form, Look, Read, Replay, Request, Seen, Words, Write};

/// A slip: the call that it touches, what it is, and how it alters what is expected.
pub struct Slip {
    pub call: &'static str,
    pub what: &'static str,
    pub alter: fn(&Call, &mut Seen),
}

/// A slip in a row of the table.
const fn slip(call: &'static str, what: &'static str, alter: fn(&Call, &mut Seen)) -> Slip {
    Slip { call, what, alter }
}

/// All slips.
pub const SLIPS: &[Slip] = &[
    slip("pd_words", "2Q's entries are 2C", words_two_q),
    slip("pd_words", "3 before 2", words_three_first),
    slip("pd_words", "capacity 513 accepted", words_513),
    slip("pd_words", "a refusal clears the answer", words_cleared),
    slip("pd_form", "segmented capacity 1 is 3", form_segmented_one),
    slip("pd_form", "the last word kept", form_last_kept),
    slip("pd_form", "4 before 3", form_four_first),
    slip("pd_form", "refusal 4 writes the policy", form_writes),
    slip("pd_form", "a longer slice accepted", form_longer),
    slip("pd_audit", "word 15 unread", audit_word_15),
    slip("pd_audit", "a page may stand twice", audit_twice),
    slip("pd_audit", "slots unread", audit_slots),
    slip("pd_audit", "chains unread", audit_chains),
    slip("pd_audit", "limits unread", audit_limits),
    slip("pd_audit", "CLOCK's hand may be C", audit_hand),
    slip("pd_audit", "free entries' slots unread", audit_free_slots),
    slip("pd_audit", "ghosts before all is held", audit_early_ghosts),
    slip("pd_look", "6 before 5", look_six_first),
    slip("pd_look", "a ghost is absent", look_ghost_absent),
    slip("pd_look", "a ghost has slot 0", look_ghost_slot),
    slip("pd_look", "the largest page refused", look_largest),
    slip("pd_look", "a refusal writes absent", look_writes),
    slip("pd_report", "8 before 9", report_eight_first),
    slip("pd_report", "an exact buffer refused", report_exact),
    slip("pd_report", "back first", report_reversed),
    slip("pd_report", "CLOCK in the order of pages", report_sorted),
    slip(
        "pd_report",
        "the rest of the buffer cleared",
        report_cleared,
    ),
    slip("pd_curve", "6 before 7", curve_six_first),
    slip("pd_curve", "short work accepted", curve_short_work),
    slip("pd_curve", "the last hits as one below", curve_last_hits),
    slip("pd_curve", "unused work words kept", curve_kept),
    slip("pd_curve", "65,535 pages refused", curve_longest),
    slip("pd_curve", "words past m cleared", curve_cleared),
    slip("pd_curve", "memory around touched", curve_touches),
    slip("pd_read", "lines from 7 on one too low", read_line_low),
    slip("pd_read", "the line lost", read_line_lost),
    slip("pd_read", "8 before 7", read_eight_first),
    slip("pd_read", "pages stored before a refusal", read_stores),
    slip("pd_read", "a leading zero accepted", read_zero),
    slip("pd_read", "4,294,967,296 accepted", read_too_large),
    slip("pd_read", "a refusal clears the answer", read_cleared),
    slip("pd_write", "an exact buffer refused", write_exact),
    slip("pd_write", "8 before 7", write_eight_first),
    slip("pd_write", "bytes behind the text cleared", write_cleared),
    slip("pd_write", "no last byte 10", write_no_end),
    slip("pd_request", "6 before 5", request_six_first),
    slip("pd_request", "cleared marks uncounted", request_marks),
    slip("pd_request", "the page put out untold", request_out),
    slip("pd_request", "hand or target kept", request_dial),
    slip("pd_request", "a swap told as a load", request_kind),
    slip("pd_replay", "swaps counted as loads", replay_swaps),
    slip("pd_replay", "6 before 7", replay_six_first),
    slip("pd_replay", "the words left alone", replay_idle),
    slip("pd_replay", "65,535 pages refused", replay_longest),
];

/// The settings of pd_words or pd_form.
fn settings_of(call: &Call) -> [u32; 4] {
    match *call {
        Call::Words(Words { settings, .. }) | Call::Form(Form { settings, .. }) => settings,
        _ => [0; 4],
    }
}

/// What was expected becomes a refusal: every lent stretch is as before.
fn refuse<const N: usize>(seen: &mut Seen, number: u64, before: [&[u32]; N]) {
    seen.code = number;
    seen.lent = before.map(<[u32]>::to_vec).to_vec();
}

/// 2Q's entries are 2C.
fn words_two_q(call: &Call, seen: &mut Seen) {
    let [policy, capacity, ..] = settings_of(call);
    if policy == 4 && seen.code == 0 {
        seen.lent[0][0] = words_for(5, capacity, 0, 0).unwrap_or(0);
    }
}

/// A wrong first setting is refused before the capacity.
fn words_three_first(call: &Call, seen: &mut Seen) {
    let [policy, _, first, _] = settings_of(call);
    if policy == 1 && first != 0 {
        seen.code = 3;
    }
}

/// LRU may have capacity 513.
fn words_513(call: &Call, seen: &mut Seen) {
    if settings_of(call) == [1, 513, 0, 0] {
        seen.code = 0;
        seen.lent[0][0] = 16 + 8 * 513 + 1024;
    }
}

/// A refusal clears the answer.
fn words_cleared(_: &Call, seen: &mut Seen) {
    if seen.code != 0 {
        seen.lent[0][0] = 0;
    }
}

/// The segmented policy with capacity 1 is refused with 3.
fn form_segmented_one(call: &Call, seen: &mut Seen) {
    if settings_of(call)[..2] == [3, 1] {
        seen.code = 3;
    }
}

/// Form leaves the last word.
fn form_last_kept(call: &Call, seen: &mut Seen) {
    if let (Call::Form(Form { words, .. }), 0) = (call, seen.code) {
        seen.lent[0][words.len() - 1] = words[words.len() - 1];
    }
}

/// The length is checked before the settings.
fn form_four_first(_: &Call, seen: &mut Seen) {
    if seen.code == 3 {
        seen.code = 4;
    }
}

/// Refusal 4 comes after the first word was written.
fn form_writes(call: &Call, seen: &mut Seen) {
    if seen.code == 4 && !seen.lent[0].is_empty() {
        seen.lent[0][0] = settings_of(call)[0];
    }
}

/// Form takes a slice that is too long.
fn form_longer(call: &Call, seen: &mut Seen) {
    let [policy, capacity, first, second] = settings_of(call);
    let exact = words_for(policy, capacity, first, second).unwrap_or(0) as usize;
    if seen.code == 4 && seen.lent[0].len() > exact {
        seen.code = 0;
    }
}

/// Words are sound if the changed copy of them is.
fn audit_mended(seen: &mut Seen, mend: impl Fn(&mut Vec<u32>)) {
    let mut words = seen.lent[0].clone();
    if words.len() >= 16 {
        mend(&mut words);
        seen.code = u64::from(first_broken_rule(&words) == 0);
    }
}

/// Words whose first broken rule has the number are sound.
fn audit_without(seen: &mut Seen, rule: u32) {
    if first_broken_rule(&seen.lent[0]) == rule {
        seen.code = 1;
    }
}

/// Word 15 is not read.
fn audit_word_15(_: &Call, seen: &mut Seen) {
    audit_mended(seen, |words| words[15] = 0);
}

/// Rule e is not judged.
fn audit_twice(_: &Call, seen: &mut Seen) {
    audit_without(seen, 5);
}

/// Rule f is not judged.
fn audit_slots(_: &Call, seen: &mut Seen) {
    audit_without(seen, 6);
}

/// Rule g is not judged.
fn audit_chains(_: &Call, seen: &mut Seen) {
    audit_without(seen, 7);
}

/// Rule h is not judged.
fn audit_limits(_: &Call, seen: &mut Seen) {
    audit_without(seen, 8);
}

/// CLOCK's hand may stand at C.
fn audit_hand(_: &Call, seen: &mut Seen) {
    audit_mended(seen, |words| {
        if words[0] == 2 && words[6] == words[1] {
            words[6] = 0;
        }
    });
}

/// The slot of a free entry is not read.
fn audit_free_slots(_: &Call, seen: &mut Seen) {
    audit_mended(seen, |words| {
        for entry in words[16..].chunks_exact_mut(8) {
            if entry[0] == NONE && entry[1] == 0 {
                entry[2] = NONE;
            }
        }
    });
}

/// ARC may remember pages before all slots are taken.
fn audit_early_ghosts(_: &Call, seen: &mut Seen) {
    let words = &seen.lent[0];
    if first_broken_rule(words) == 8 && words[0] == 5 {
        let entries = words[16..].chunks_exact(8).take(words[2] as usize);
        let held = entries.filter(|entry| entry[1] == 1 || entry[1] == 2);
        if held.count() < words[1] as usize {
            seen.code = 1;
        }
    }
}

/// A page that is none is refused before unsound words.
fn look_six_first(call: &Call, seen: &mut Seen) {
    if let (Call::Look(Look { page: NONE, .. }), 5) = (call, seen.code) {
        seen.code = 6;
    }
}

/// A remembered page is told as absent.
fn look_ghost_absent(_: &Call, seen: &mut Seen) {
    if seen.code == 0 && seen.lent[1][0] == 2 {
        seen.lent[1][0] = 0;
    }
}

/// A remembered page has slot 0.
fn look_ghost_slot(_: &Call, seen: &mut Seen) {
    if seen.code == 0 && seen.lent[1][0] == 2 {
        seen.lent[1][1] = 0;
    }
}

/// The largest page is taken for none.
fn look_largest(call: &Call, seen: &mut Seen) {
    if let Call::Look(look) = call {
        if look.page == NONE - 1 && seen.code == 0 {
            refuse(seen, 6, [look.words, &look.answer]);
        }
    }
}

/// A refusal writes the answer of an absent page.
fn look_writes(_: &Call, seen: &mut Seen) {
    if seen.code != 0 {
        seen.lent[1] = vec![0, NONE];
    }
}

/// A short buffer is refused before an unknown list.
fn report_eight_first(_: &Call, seen: &mut Seen) {
    if seen.code == 9 && seen.lent[1].is_empty() {
        seen.code = 8;
    }
}

/// A buffer that is just long enough is refused.
fn report_exact(call: &Call, seen: &mut Seen) {
    if let Call::Report(report) = call {
        let exact = seen.lent[2][0] as usize == report.result.len();
        if seen.code == 0 && exact && !report.result.is_empty() {
            refuse(seen, 8, [report.words, report.result, &report.answer]);
        }
    }
}

/// How many pages a report gave, 0 on a refusal.
fn reported(seen: &Seen) -> usize {
    if seen.code == 0 {
        seen.lent[2][0] as usize
    } else {
        0
    }
}

/// A list is reported from its back.
fn report_reversed(_: &Call, seen: &mut Seen) {
    let count = reported(seen);
    seen.lent[1][..count].reverse();
}

/// CLOCK's pages are reported in their own order.
fn report_sorted(_: &Call, seen: &mut Seen) {
    let count = reported(seen);
    if count > 0 && seen.lent[0][0] == 2 {
        seen.lent[1][..count].sort_unstable();
    }
}

/// The buffer is filled up with NONE.
fn report_cleared(_: &Call, seen: &mut Seen) {
    let count = reported(seen);
    if seen.code == 0 {
        seen.lent[1][count..].fill(NONE);
    }
}

/// A page that is none is refused before a trace that is too long.
fn curve_six_first(_: &Call, seen: &mut Seen) {
    if seen.code == 7 && seen.lent[0].contains(&NONE) {
        seen.code = 6;
    }
}

/// Only the result is checked for its length.
fn curve_short_work(call: &Call, seen: &mut Seen) {
    if let Call::Curve(curve) = call {
        if seen.code == 8 && curve.result.len() >= curve.largest as usize {
            seen.code = 0;
        }
    }
}

/// The number of words that a curve wrote, 0 on a refusal.
fn curve_words(call: &Call, seen: &Seen) -> usize {
    match call {
        Call::Curve(Curve { largest, .. }) if seen.code == 0 => *largest as usize,
        _ => 0,
    }
}

/// The hits at the largest capacity are those of the one below.
fn curve_last_hits(call: &Call, seen: &mut Seen) {
    let count = curve_words(call, seen);
    if count > 1 {
        seen.lent[1][count - 1] = seen.lent[1][count - 2];
    }
}

/// Work words past the list's end are left.
fn curve_kept(call: &Call, seen: &mut Seen) {
    let count = curve_words(call, seen);
    if let Call::Curve(Curve { work, .. }) = call {
        for place in 0..count {
            if seen.lent[2][place] == NONE {
                seen.lent[2][place] = work[place];
            }
        }
    }
}

/// The longest trace is refused.
fn curve_longest(call: &Call, seen: &mut Seen) {
    if let Call::Curve(curve) = call {
        if curve.trace.len() == LONGEST && seen.code == 0 {
            refuse(seen, 7, [curve.trace, curve.result, curve.work]);
        }
    }
}

/// Result words past the largest capacity are cleared.
fn curve_cleared(call: &Call, seen: &mut Seen) {
    let count = curve_words(call, seen);
    if seen.code == 0 {
        seen.lent[1][count..].fill(0);
    }
}

/// A word behind a lent stretch is written.
fn curve_touches(_: &Call, seen: &mut Seen) {
    seen.guarded = seen.code != 0;
}

/// The line of a refusal of pd_read.
fn line_of(seen: &Seen) -> u64 {
    seen.code >> 32
}

/// A wrong page line but the first is told as the line above.
fn read_line_low(_: &Call, seen: &mut Seen) {
    if line_of(seen) > 6 {
        seen.code -= 1 << 32;
    }
}

/// The line is not told.
fn read_line_lost(_: &Call, seen: &mut Seen) {
    seen.code &= 0xFFFF_FFFF;
}

/// A short trace buffer is refused before a count that is too large.
fn read_eight_first(_: &Call, seen: &mut Seen) {
    if seen.code == 7 && seen.lent[1].is_empty() {
        seen.code = 8;
    }
}

/// The first page is stored though a later line is wrong.
fn read_stores(call: &Call, seen: &mut Seen) {
    if let Call::Read(Read { text, .. }) = call {
        let first = String::from_utf8_lossy(text)
            .lines()
            .nth(5)
            .and_then(|line| line.strip_prefix("page=")?.parse().ok());
        if let (Some(page), true) = (first, line_of(seen) > 6) {
            seen.lent[1][..1].fill(page);
        }
    }
}

/// A text is accepted if it is with its first `old` turned to `new`.
fn read_mended(call: &Call, seen: &mut Seen, old: &str, new: &str) {
    if let (Call::Read(Read { text, trace, .. }), 10) = (call, seen.code & 0xFFFF_FFFF) {
        let mended = String::from_utf8_lossy(text).replacen(old, new, 1);
        if text::read(mended.as_bytes(), &mut trace.to_vec()).is_ok() {
            seen.code = 0;
        }
    }
}

/// A page with a leading zero is accepted.
fn read_zero(call: &Call, seen: &mut Seen) {
    read_mended(call, seen, "=0", "=");
}

/// The number past the largest is accepted.
fn read_too_large(call: &Call, seen: &mut Seen) {
    read_mended(call, seen, "4294967296", "4294967295");
}

/// A refusal clears the answer.
fn read_cleared(_: &Call, seen: &mut Seen) {
    if seen.code != 0 {
        seen.lent[2].fill(0);
    }
}

/// A text buffer that is just long enough is refused.
fn write_exact(call: &Call, seen: &mut Seen) {
    if let Call::Write(write) = call {
        if seen.code == 0 && seen.lent[2][0] as usize == write.text.len() {
            refuse(seen, 8, [write.trace, &widened(write.text), &write.answer]);
        }
    }
}

/// A short text buffer is refused before a trace that is too long.
fn write_eight_first(_: &Call, seen: &mut Seen) {
    if seen.code == 7 && seen.lent[1].is_empty() {
        seen.code = 8;
    }
}

/// Bytes behind the text are cleared.
fn write_cleared(_: &Call, seen: &mut Seen) {
    if seen.code == 0 {
        let length = seen.lent[2][0] as usize;
        seen.lent[1][length..].fill(0);
    }
}

/// The last line is left without its end.
fn write_no_end(call: &Call, seen: &mut Seen) {
    if let (Call::Write(Write { text, .. }), 0) = (call, seen.code) {
        let last = seen.lent[2][0] as usize - 1;
        seen.lent[1][last] = u32::from(text[last]);
        seen.lent[2][0] -= 1;
    }
}

/// A page that is none is refused before unsound words.
fn request_six_first(call: &Call, seen: &mut Seen) {
    if let (Call::Request(Request { page: NONE, .. }), 5) = (call, seen.code) {
        seen.code = 6;
    }
}

/// Cleared marks are not counted.
fn request_marks(_: &Call, seen: &mut Seen) {
    if seen.code == 0 {
        seen.lent[1][3] = 0;
    }
}

/// The page put out is not told.
fn request_out(_: &Call, seen: &mut Seen) {
    if seen.code == 0 {
        seen.lent[1][2] = NONE;
    }
}

/// Word 6 is not written.
fn request_dial(call: &Call, seen: &mut Seen) {
    if let (Call::Request(Request { words, .. }), 0) = (call, seen.code) {
        seen.lent[0][6] = words[6];
    }
}

/// A swap is told as a load.
fn request_kind(_: &Call, seen: &mut Seen) {
    if seen.code == 0 {
        seen.lent[1][0] = seen.lent[1][0].min(2);
    }
}

/// Swaps are counted as loads.
fn replay_swaps(_: &Call, seen: &mut Seen) {
    if seen.code == 0 {
        seen.lent[2][1] += seen.lent[2][2];
        seen.lent[2][2] = 0;
    }
}

/// A page that is none is refused before a trace that is too long.
fn replay_six_first(_: &Call, seen: &mut Seen) {
    if seen.code == 7 && seen.lent[1].contains(&NONE) {
        seen.code = 6;
    }
}

/// The words are left as they were.
fn replay_idle(call: &Call, seen: &mut Seen) {
    if let Call::Replay(Replay { words, .. }) = call {
        seen.lent[0] = words.to_vec();
    }
}

/// The longest trace is refused.
fn replay_longest(call: &Call, seen: &mut Seen) {
    if let Call::Replay(replay) = call {
        if replay.trace.len() == LONGEST && seen.code == 0 {
            refuse(seen, 7, [replay.words, replay.trace, &replay.answer]);
        }
    }
}
