//! The library's side: what C sees of a call to its functions.

use crate::pagedir::{
    pd_audit, pd_curve, pd_form, pd_look, pd_read, pd_replay, pd_report, pd_request, pd_words,
    pd_write,
};

use super::call::{
    widened, Audit, Curve, Form, Look, Read, Replay, Report, Request, Seen, Words, Write,
};
use super::lent::Lent;
use super::side::Side;

/// What stands around lent words.
const WORD_GUARD: u32 = 0xC0DE_CAFE;

/// What stands around lent bytes.
const BYTE_GUARD: u8 = 0xA7;

/// Guarded words.
fn lend(contents: &[u32]) -> Lent<u32> {
    Lent::new(contents, WORD_GUARD)
}

/// Guarded bytes.
fn lend_bytes(contents: &[u8]) -> Lent<u8> {
    Lent::new(contents, BYTE_GUARD)
}

/// What was returned and what stands in the lent words.
fn words_seen(code: u32, lent: &[&Lent<u32>]) -> Seen {
    Seen {
        code: u64::from(code),
        lent: lent.iter().map(|part| part.contents().to_vec()).collect(),
        guarded: lent.iter().all(|part| part.is_guarded()),
    }
}

/// The same, with lent bytes put before the stretch of the given number.
fn with_bytes(mut seen: Seen, place: usize, bytes: &Lent<u8>) -> Seen {
    seen.lent.insert(place, widened(bytes.contents()));
    seen.guarded &= bytes.is_guarded();
    seen
}

/// The library, called as C calls it: each pointer is that of a stretch lent for the call, of the length handed over beside it.
pub struct Library;

impl Side for Library {
    /// What C sees of pd_words.
    fn words(call: &Words) -> Seen {
        let [policy, capacity, first, second] = call.settings;
        let mut answer = lend(&call.answer);
        let code = unsafe { pd_words(policy, capacity, first, second, answer.address()) };
        words_seen(code, &[&answer])
    }

    /// What C sees of pd_form.
    fn form(call: &Form) -> Seen {
        let [policy, capacity, first, second] = call.settings;
        let mut words = lend(call.words);
        let n = words.len();
        let code = unsafe { pd_form(policy, capacity, first, second, words.address(), n) };
        words_seen(code, &[&words])
    }

    /// What C sees of pd_audit.
    fn audit(call: &Audit) -> Seen {
        let mut words = lend(call.words);
        let code = unsafe { pd_audit(words.address(), words.len()) };
        words_seen(code, &[&words])
    }

    /// What C sees of pd_look.
    fn look(call: &Look) -> Seen {
        let (mut words, mut answer) = (lend(call.words), lend(&call.answer));
        let code = unsafe { pd_look(words.address(), words.len(), call.page, answer.address()) };
        words_seen(code, &[&words, &answer])
    }

    /// What C sees of pd_report.
    fn report(call: &Report) -> Seen {
        let (mut words, mut result) = (lend(call.words), lend(call.result));
        let mut answer = lend(&call.answer);
        let (n, rn) = (words.len(), result.len());
        let code = unsafe {
            pd_report(
                words.address(),
                n,
                call.list,
                result.address(),
                rn,
                answer.address(),
            )
        };
        words_seen(code, &[&words, &result, &answer])
    }

    /// What C sees of pd_curve.
    fn curve(call: &Curve) -> Seen {
        let mut trace = lend(call.trace);
        let (mut result, mut work) = (lend(call.result), lend(call.work));
        let (tn, rn, wn) = (trace.len(), result.len(), work.len());
        let code = unsafe {
            pd_curve(
                call.largest,
                trace.address(),
                tn,
                result.address(),
                rn,
                work.address(),
                wn,
            )
        };
        words_seen(code, &[&trace, &result, &work])
    }

    /// What C sees of pd_read.
    fn read(call: &Read) -> Seen {
        let mut text = lend_bytes(call.text);
        let (mut trace, mut answer) = (lend(call.trace), lend(&call.answer));
        let (n, tn) = (text.len(), trace.len());
        let code = unsafe { pd_read(text.address(), n, trace.address(), tn, answer.address()) };
        let mut seen = with_bytes(words_seen(0, &[&trace, &answer]), 0, &text);
        seen.code = code;
        seen
    }

    /// What C sees of pd_write.
    fn write(call: &Write) -> Seen {
        let [policy, capacity, first, second] = call.settings;
        let mut text = lend_bytes(call.text);
        let (mut trace, mut answer) = (lend(call.trace), lend(&call.answer));
        let (tn, n) = (trace.len(), text.len());
        let code = unsafe {
            pd_write(
                policy,
                capacity,
                first,
                second,
                trace.address(),
                tn,
                text.address(),
                n,
                answer.address(),
            )
        };
        with_bytes(words_seen(code, &[&trace, &answer]), 1, &text)
    }

    /// What C sees of pd_request.
    fn request(call: &Request) -> Seen {
        let (mut words, mut answer) = (lend(call.words), lend(&call.answer));
        let n = words.len();
        let code = unsafe { pd_request(words.address(), n, call.page, answer.address()) };
        words_seen(code, &[&words, &answer])
    }

    /// What C sees of pd_replay.
    fn replay(call: &Replay) -> Seen {
        let (mut words, mut trace) = (lend(call.words), lend(call.trace));
        let mut answer = lend(&call.answer);
        let (n, tn) = (words.len(), trace.len());
        let code = unsafe { pd_replay(words.address(), n, trace.address(), tn, answer.address()) };
        words_seen(code, &[&words, &trace, &answer])
    }
}
