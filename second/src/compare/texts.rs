//! Trace texts: written ones, right and damaged ones, and every refusal.

use crate::draft::{damaged, text_of};
use crate::random::{page_pool, trace_over, Random};
use crate::settings::{LONGEST, NONE};

use super::bench::Bench;
use super::call::{Call, Read, Write};
use super::stock::garbage;

/// Generated texts for each unit of scale.
const TEXTS: usize = 5_000;

/// Damages of each generated text.
const DAMAGES: usize = 12;

/// Compares pd_read and pd_write.
pub fn run(bench: &mut Bench, random: &mut Random, scale: usize) {
    for _ in 0..TEXTS * scale {
        generated(bench, random);
    }
    chosen(bench, random);
    long_texts(bench, random);
    long_traces(bench, random);
}

/// A number for a line: small, large, at a power of ten, or at an end.
fn number(random: &mut Random) -> u32 {
    match random.below(6) {
        0 => random.next() as u32,
        1 => 10u32.pow(random.below(10) as u32) - random.below(2) as u32,
        2 => NONE - random.below(2) as u32,
        _ => random.below(600) as u32,
    }
}

/// Random settings and a short trace: written, read, and read again after damages.
fn generated(bench: &mut Bench, random: &mut Random) {
    let settings = [0; 4].map(|_: u32| number(random));
    let trace: Vec<u32> = (0..random.below(12)).map(|_| number(random)).collect();
    let text = text_of(settings, trace.len() as u32, &trace);
    for length in [text.len(), text.len() - 1, text.len() + 1, 0] {
        write(bench, random, "a buffer", (settings, &trace), length);
    }
    for room in [trace.len(), trace.len() + 2, trace.len().saturating_sub(1)] {
        read(bench, random, "a right text", &text, room);
    }
    for _ in 0..DAMAGES {
        let damaged = damaged(random, &text);
        let room = trace.len() + random.below(3);
        read(bench, random, "a damaged text", &damaged, room);
    }
}

/// Counts at their limits, in short and long buffers, with right and wrong pages behind.
fn chosen(bench: &mut Bench, random: &mut Random) {
    for count in [0, 1, 2, 3, 65_535, 65_536, NONE] {
        for behind in ["", "page=1\n", "page=1\npage=2\n", "page=01\n", "x", "\n"] {
            let mut text = text_of([1, 2, 0, 0], count, &[]);
            text.extend_from_slice(behind.as_bytes());
            for room in [0, 1, 2, 3, 65_534, 65_535, 65_536] {
                read(bench, random, "a chosen text", &text, room);
            }
        }
    }
    let whole = text_of([1, 2, 0, 0], 3, &[7, 9, 7]);
    for length in 0..=whole.len() {
        read(bench, random, "a cut text", &whole[..length], 3);
    }
}

/// Texts of the most bytes, and of one more.
fn long_texts(bench: &mut Bench, random: &mut Random) {
    let pages: Vec<u32> = (0..9_353).map(|page| page % 10).collect();
    let mut text = text_of([1, 2, 0, 0], pages.len() as u32, &pages);
    read(bench, random, "a long text", &text, 9_362);
    while text.len() < LONGEST + 2 {
        text.push(b'\n');
        if text.len() + 2 >= LONGEST {
            read(bench, random, "a text about the longest", &text, 9_362);
        }
    }
    let bad = vec![b'x'; LONGEST + 1];
    read(bench, random, "garbage too long", &bad, 0);
    read(bench, random, "garbage", &bad[1..], 0);
}

/// Traces of the most pages, and of one more, in long and short buffers.
fn long_traces(bench: &mut Bench, random: &mut Random) {
    let pool = page_pool(random, 50, true);
    let trace = trace_over(random, &pool, LONGEST + 1);
    let settings = [5, 512, 0, 0];
    let needed = text_of(settings, LONGEST as u32, &trace[..LONGEST]).len();
    for pages in [LONGEST - 1, LONGEST, LONGEST + 1] {
        for length in [needed - 1, needed, needed + 30, 0] {
            let of = (settings, &trace[..pages]);
            write(bench, random, "a long trace", of, length);
        }
    }
}

/// Compares a reading into a trace buffer of a length.
fn read(bench: &mut Bench, random: &mut Random, what: &str, text: &[u8], room: usize) {
    let trace = garbage(random, room);
    let answer = [0; 5].map(|_: u32| random.next() as u32);
    bench.compare(
        what,
        &Call::Read(Read {
            text,
            trace: &trace,
            answer,
        }),
    );
}

/// Compares a writing into a buffer of a length.
fn write(
    bench: &mut Bench,
    random: &mut Random,
    what: &str,
    of: ([u32; 4], &[u32]),
    length: usize,
) {
    let (settings, trace) = of;
    let text: Vec<u8> = (0..length).map(|_| random.next() as u8).collect();
    let answer = [random.next() as u32];
    bench.compare(
        what,
        &Call::Write(Write {
            settings,
            trace,
            text: &text,
            answer,
        }),
    );
}
