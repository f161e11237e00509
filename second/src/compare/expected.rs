//! The side that the library is held against: what C is to see by the model.

use crate::calls::{self, Looked};
use crate::policies::Answer;
use crate::refusal::Refusal;
use crate::settings::NONE;
use crate::text;

use super::apart;
use super::call::{
    widened, Audit, Curve, Form, Look, Read, Replay, Report, Request, Seen, Words, Write,
};
use super::side::Side;

/// A number returned and the lent stretches afterwards.
fn said(code: u64, lent: Vec<Vec<u32>>) -> Seen {
    Seen {
        code,
        lent,
        guarded: true,
    }
}

/// The refusal's number, its line in the high half, 0 for none.
fn code_of<T>(outcome: &Result<T, Refusal>) -> u64 {
    outcome.as_ref().err().map_or(0, |refusal| {
        u64::from(refusal.number()) + (u64::from(refusal.line()) << 32)
    })
}

/// What C is to see of a call with answer words: those are as they were on a refusal.
fn answered<const N: usize>(
    outcome: Result<[u32; N], Refusal>,
    mut lent: Vec<Vec<u32>>,
    before: [u32; N],
) -> Seen {
    lent.push(outcome.unwrap_or(before).to_vec());
    said(code_of(&outcome), lent)
}

/// What is expected of the library.
pub struct Expected;

impl Side for Expected {
    /// What C is to see of pd_words.
    fn words(call: &Words) -> Seen {
        let [policy, capacity, first, second] = call.settings;
        let outcome = calls::words_for(policy, capacity, first, second);
        answered(outcome.map(|length| [length]), vec![], call.answer)
    }

    /// What C is to see of pd_form.
    fn form(call: &Form) -> Seen {
        let [policy, capacity, first, second] = call.settings;
        let mut words = call.words.to_vec();
        let outcome = calls::form(policy, capacity, first, second, &mut words);
        said(code_of(&outcome), vec![words])
    }

    /// What C is to see of pd_audit.
    fn audit(call: &Audit) -> Seen {
        let sound = calls::audit(call.words);
        said(u64::from(sound), vec![call.words.to_vec()])
    }

    /// What C is to see of pd_look.
    fn look(call: &Look) -> Seen {
        let outcome = calls::look(call.words, call.page).map(|looked| match looked {
            Looked::Absent => [0, NONE],
            Looked::Held(slot) => [1, slot],
            Looked::Remembered => [2, NONE],
        });
        answered(outcome, vec![call.words.to_vec()], call.answer)
    }

    /// What C is to see of pd_report.
    fn report(call: &Report) -> Seen {
        let mut result = call.result.to_vec();
        let outcome = calls::report(call.words, call.list, &mut result).map(|count| [count]);
        answered(outcome, vec![call.words.to_vec(), result], call.answer)
    }

    /// What C is to see of pd_curve: by the model's directories for a short trace, by an LRU for each capacity for a long one.
    fn curve(call: &Curve) -> Seen {
        let (largest, trace) = (call.largest, call.trace);
        let (mut hits, mut list) = (call.result.to_vec(), call.work.to_vec());
        let outcome = if apart::is_long(largest, trace) {
            apart::curve(largest, trace, &mut hits, &mut list)
        } else {
            calls::curve(largest, trace, &mut hits, &mut list)
        };
        said(code_of(&outcome), vec![trace.to_vec(), hits, list])
    }

    /// What C is to see of pd_read.
    fn read(call: &Read) -> Seen {
        let mut trace = call.trace.to_vec();
        let outcome = text::read(call.text, &mut trace).map(|heading| {
            [
                heading.policy,
                heading.capacity,
                heading.first,
                heading.second,
                heading.count,
            ]
        });
        answered(outcome, vec![widened(call.text), trace], call.answer)
    }

    /// What C is to see of pd_write.
    fn write(call: &Write) -> Seen {
        let [policy, capacity, first, second] = call.settings;
        let mut text = call.text.to_vec();
        let outcome = text::write(policy, capacity, first, second, call.trace, &mut text);
        answered(
            outcome.map(|length| [length]),
            vec![call.trace.to_vec(), widened(&text)],
            call.answer,
        )
    }

    /// What C is to see of pd_request.
    fn request(call: &Request) -> Seen {
        let mut words = call.words.to_vec();
        let outcome = calls::request(&mut words, call.page).map(|answer| match answer {
            Answer::Hit { slot, cleared } => [1, slot, NONE, cleared],
            Answer::Loaded { slot, cleared } => [2, slot, NONE, cleared],
            Answer::Swapped { slot, out, cleared } => [3, slot, out, cleared],
        });
        answered(outcome, vec![words], call.answer)
    }

    /// What C is to see of pd_replay.
    fn replay(call: &Replay) -> Seen {
        let mut words = call.words.to_vec();
        let outcome = calls::replay(&mut words, call.trace);
        let outcome = outcome.map(|counts| [counts.hits, counts.loads, counts.swaps]);
        answered(outcome, vec![words, call.trace.to_vec()], call.answer)
    }
}
