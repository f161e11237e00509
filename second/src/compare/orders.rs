//! Every order of requests for a few pages, for each policy and every setting of small capacities.

use crate::codec::encode;
use crate::model::Directory;
use crate::random::{page_pool, Random};
use crate::settings::{Policy, Settings};

use super::asking::{ask, replay};
use super::bench::Bench;

/// The capacities whose settings are all walked.
const CAPACITIES: [u32; 3] = [1, 2, 3];

/// A few traces, which show most differences.
pub const FEW: &[Span] = &[span(7, 7, true)];

/// Many traces.
pub const MANY: &[Span] = &[span(4, 7, false), span(5, 6, false), span(8, 9, true)];

/// The span with these numbers.
const fn span(pages: usize, length: usize, in_turn: bool) -> Span {
    Span {
        pages,
        length,
        in_turn,
    }
}

/// Which traces are walked.
#[derive(Clone, Copy)]
pub struct Span {
    pages: usize,
    length: usize,
    /// A page comes first only after all before it, so that no trace is another with its pages renamed.
    in_turn: bool,
}

impl Span {
    /// How many pages may come after a trace.
    fn choices(&self, pool: &[u32], trace: &[u32]) -> usize {
        if self.in_turn {
            let used = pool.iter().take_while(|page| trace.contains(page)).count();
            self.pages.min(used + 1)
        } else {
            self.pages
        }
    }
}

/// Walks all traces of each span from a fresh directory of every settings.
pub fn run(bench: &mut Bench, random: &mut Random, spans: &[Span]) {
    for span in spans {
        for settings in small_settings() {
            let large_pages = random.one_in(2);
            let fresh = encode(&Directory::fresh(settings));
            let mut walk = Walk {
                span: *span,
                pool: page_pool(random, span.pages, large_pages),
                fresh: &fresh,
                trace: Vec::new(),
                bench,
                random,
            };
            walk.go_on(&fresh);
        }
    }
}

/// All settings of the small capacities.
fn small_settings() -> Vec<Settings> {
    let mut all = Vec::new();
    for policy in Policy::ALL {
        for capacity in CAPACITIES {
            for (first, second) in (0..=capacity).flat_map(|f| (0..=capacity).map(move |s| (f, s)))
            {
                all.extend(Settings::checked(policy.number(), capacity, first, second));
            }
        }
    }
    all
}

/// A walk through the traces of a span, depth first.
struct Walk<'a> {
    bench: &'a mut Bench,
    random: &'a mut Random,
    span: Span,
    pool: Vec<u32>,
    fresh: &'a [u32],
    trace: Vec<u32>,
}

impl Walk<'_> {
    /// Compares each request that may come next, and all that come after it; whole traces also as a replay.
    fn go_on(&mut self, words: &[u32]) {
        if self.trace.len() == self.span.length {
            replay(
                self.bench,
                self.random,
                "every order",
                self.fresh,
                &self.trace,
            );
            return;
        }
        for choice in 0..self.span.choices(&self.pool, &self.trace) {
            let page = self.pool[choice];
            let Some(after) = ask(self.bench, self.random, "every order", words, page) else {
                return;
            };
            self.trace.push(page);
            self.go_on(&after);
            self.trace.pop();
        }
    }
}
