//! Generated texts: right ones of every policy, and ones that are refused.

use crate::draft::{damaged, text_of};
use crate::random::{page_pool, settings_at, trace_over, Random};
use crate::settings::{Policy, LARGEST_CAPACITY, NONE};

/// One text in so many is long.
const LONG_ONE_IN: usize = 100;

/// Settings and a trace before they are a text.
struct Draft {
    settings: [u32; 4],
    trace: Vec<u32>,
}

impl Draft {
    /// Right settings of any policy with a trace of at most so many pages.
    fn new(random: &mut Random, largest: u32, longest: usize) -> Draft {
        let policy = random.pick(&Policy::ALL);
        let capacity = random.between(1, largest);
        let settings = settings_at(random, policy, capacity);
        let large_pages = random.one_in(4);
        let pages = 1 + random.below(3 * settings.entries());
        let pool = page_pool(random, pages, large_pages);
        let length = random.below(longest + 1);
        Draft {
            settings: settings.numbers(),
            trace: trace_over(random, &pool, length),
        }
    }

    /// The text with its right count.
    fn text(&self) -> Vec<u8> {
        text_of(self.settings, self.trace.len() as u32, &self.trace)
    }
}

/// A text, and what kind it is of.
pub fn text(random: &mut Random) -> (&'static str, Vec<u8>) {
    if random.one_in(LONG_ONE_IN) {
        let draft = Draft::new(random, LARGEST_CAPACITY, 8_000);
        return ("a long text", draft.text());
    }
    let mut draft = Draft::new(random, 40, 200);
    match random.below(8) {
        0 => {
            change_setting(random, &mut draft.settings);
            ("changed settings", draft.text())
        }
        1 => {
            let place = random.below(draft.trace.len() + 1);
            draft.trace.insert(place, NONE);
            ("a text with NONE", draft.text())
        }
        2 => ("a damaged text", damaged(random, &draft.text())),
        3 => {
            change_setting(random, &mut draft.settings);
            let text = damaged(random, &draft.text());
            ("changed settings in a damaged text", text)
        }
        _ => ("a right text", draft.text()),
    }
}

/// Changes one of the four settings to a number at an end of some range.
fn change_setting(random: &mut Random, settings: &mut [u32; 4]) {
    let capacity = settings[1];
    let number = random.pick(&[
        0,
        1,
        2,
        6,
        LARGEST_CAPACITY,
        LARGEST_CAPACITY + 1,
        NONE,
        capacity - 1,
        capacity,
        capacity + 1,
    ]);
    settings[random.below(4)] = number;
}
