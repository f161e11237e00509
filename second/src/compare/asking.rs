//! One request or one replay compared, with any words in its answer before.

use crate::random::Random;

use super::bench::Bench;
use super::call::{Call, Replay, Request};

/// Compares a request and gives the words that the library left.
pub fn ask(
    bench: &mut Bench,
    random: &mut Random,
    what: &str,
    words: &[u32],
    page: u32,
) -> Option<Vec<u32>> {
    let answer = [0; 4].map(|_: u32| random.next() as u32);
    let call = Call::Request(Request {
        words,
        page,
        answer,
    });
    bench.compare(what, &call)?.lent.into_iter().next()
}

/// Compares a replay.
pub fn replay(bench: &mut Bench, random: &mut Random, what: &str, words: &[u32], trace: &[u32]) {
    let answer = [0; 3].map(|_: u32| random.next() as u32);
    bench.compare(
        what,
        &Call::Replay(Replay {
            words,
            trace,
            answer,
        }),
    );
}
