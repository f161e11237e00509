//! The replay program: a trace text in, five lines out.

use crate::calls::{form, replay, words_for, Counts};
use crate::refusal::Refusal;
use crate::text::read;

/// The pages that the program has room for.
pub const ROOM: usize = 9_362;

/// What the program writes for an input.
pub fn run(input: &[u8]) -> String {
    match read_form_replay(input) {
        Ok(counts) => five_lines(0, 0, counts),
        Err(refusal) => five_lines(refusal.number(), refusal.line(), Counts::default()),
    }
}

/// Reads the text, forms the directory and replays the trace; the first refusal ends it.
fn read_form_replay(input: &[u8]) -> Result<Counts, Refusal> {
    let mut trace = vec![0; ROOM];
    let heading = read(input, &mut trace)?;
    let length = words_for(
        heading.policy,
        heading.capacity,
        heading.first,
        heading.second,
    )?;
    let mut words = vec![0; length as usize];
    form(
        heading.policy,
        heading.capacity,
        heading.first,
        heading.second,
        &mut words,
    )?;
    replay(&mut words, &trace[..heading.count as usize])
}

/// The five lines of the program's result.
pub fn five_lines(refused: u32, line: u32, counts: Counts) -> String {
    let Counts { hits, loads, swaps } = counts;
    format!("refused={refused}\nline={line}\nhits={hits}\nloads={loads}\nswaps={swaps}\n")
}
