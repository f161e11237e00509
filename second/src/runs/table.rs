//! Runs whose five numbers are counted by hand from the scope document.

use std::iter::once;

use crate::draft::text_of;
use crate::settings::NONE;

/// A text and the five numbers that the program is to write for it.
pub struct Row {
    pub what: String,
    pub text: Vec<u8>,
    /// Refused, line, hits, loads and swaps.
    pub numbers: [u32; 5],
}

/// The five numbers of a text that is too long.
const TOO_LONG: [u32; 5] = [7, 0, 0, 0, 0];

/// The scope document's whole example, `/` standing for byte 10.
const EXAMPLE: &str = "policy=1/capacity=2/first=0/second=0/count=4/page=7/page=9/page=7/page=5/";

/// Texts with wrong lines, `/` standing for byte 10, and the line that refusal 10 names.
const WRONG_LINES: &[(&str, u32)] = &[
    // Nothing, and what is cut off.
    ("", 1),
    ("/", 1),
    ("policy=1", 1),
    ("policy=1/", 2),
    ("policy=1/capacity=2/first=0/second=0", 4),
    ("policy=1/capacity=2/first=0/second=0/", 5),
    ("policy=1/capacity=2/first=0/second=0/count=0", 5),
    ("policy=1/capacity=2/first=0/second=0/count=1/", 6),
    ("policy=1/capacity=2/first=0/second=0/count=1/page=7", 6),
    ("policy=1/capacity=2/first=0/second=0/count=2/page=7/", 7),
    (
        "policy=1/capacity=2/first=0/second=0/count=2/page=7/page=9",
        7,
    ),
    (
        "policy=1/capacity=2/first=0/second=0/count=4/page=7/page=9/page=7/",
        9,
    ),
    // Bytes after the end.
    ("policy=1/capacity=2/first=0/second=0/count=0/x", 6),
    ("policy=1/capacity=2/first=0/second=0/count=0//", 6),
    ("policy=1/capacity=2/first=0/second=0/count=0/page=7/", 6),
    ("policy=1/capacity=2/first=0/second=0/count=1/page=7/ ", 7),
    ("policy=1/capacity=2/first=0/second=0/count=1/page=7//", 7),
    ("policy=1/capacity=2/first=0/second=0/count=1/page=7/\0", 7),
    (
        "policy=1/capacity=2/first=0/second=0/count=4/page=7/page=9/page=7/page=5/page=5/",
        10,
    ),
    // Leading zeros.
    ("policy=01/capacity=2/first=0/second=0/count=0/", 1),
    ("policy=1/capacity=02/first=0/second=0/count=0/", 2),
    ("policy=1/capacity=2/first=00/second=0/count=0/", 3),
    ("policy=1/capacity=2/first=0/second=00/count=0/", 4),
    ("policy=1/capacity=2/first=0/second=0/count=00/", 5),
    ("policy=1/capacity=2/first=0/second=0/count=1/page=07/", 6),
    ("policy=1/capacity=2/first=0/second=0/count=1/page=00/", 6),
    // Signs, spaces, carriage returns and other bytes.
    ("policy=+1/capacity=2/first=0/second=0/count=0/", 1),
    ("policy=1/capacity=-2/first=0/second=0/count=0/", 2),
    ("policy=1/capacity=2/first=-0/second=0/count=0/", 3),
    ("policy=1/capacity=2/first=0/second=0/count=1/page=+7/", 6),
    ("policy=1/capacity=2/first=0/second=0/count=1/page=-7/", 6),
    (" policy=1/capacity=2/first=0/second=0/count=0/", 1),
    ("policy=1/capacity= 2/first=0/second=0/count=0/", 2),
    ("policy=1/capacity=2/first=0 /second=0/count=0/", 3),
    ("policy=1/capacity=2/first=0/second =0/count=0/", 4),
    ("policy=1/capacity=2/first=0/second=0/count=1/page= 7/", 6),
    ("policy=1/capacity=2/first=0/second=0/count=1/page=7 /", 6),
    ("policy=1/capacity=2/first=0/second=0/count=1/page=\t7/", 6),
    ("policy=1\r/capacity=2/first=0/second=0/count=0/", 1),
    ("policy=1/capacity=2/first=0/second=0/count=0\r/", 5),
    ("policy=1/capacity=2/first=0/second=0/count=1/page=7\r/", 6),
    ("policy=1/capacity=2/first=0/second=0/count=1/page=7\0/", 6),
    ("policy=1/capacity=2/first=0/second=0/count=1/page=0x7/", 6),
    ("policy=1/capacity=2/first=0/second=0/count=1/page=7.0/", 6),
    ("policy=1/capacity=2/first=0/second=0/count=1/page=1e1/", 6),
    ("policy=1/capacity=2/first=0/second=0/count=1/page=:/", 6),
    // Keys.
    ("capacity=2/policy=1/first=0/second=0/count=0/", 1),
    ("policy=1/size=2/first=0/second=0/count=0/", 2),
    ("policy=1/capacity=2/second=0/first=0/count=0/", 3),
    ("policy=1/capacity=2/first=0/count=0/", 4),
    ("policy=1/capacity=2/first=0/second=0/page=7/", 5),
    ("policy=1/capacity=2/first=0/second=0/count=1/pages=7/", 6),
    ("policy=1/capacity=2/first=0/second=0/count=1/pag=7/", 6),
    ("policy=1/capacity=2/first=0/second=0/count=1/page7/", 6),
    ("policy=1/capacity=2/first=0/second=0/count=1/7/", 6),
    ("Policy=1/capacity=2/first=0/second=0/count=0/", 1),
    ("policy=1/CAPACITY=2/first=0/second=0/count=0/", 2),
    ("policy=1/capacity=2/first=0/second=0/count=1/PAGE=7/", 6),
    // No number.
    ("policy=/capacity=2/first=0/second=0/count=0/", 1),
    ("policy=1/capacity=2/first=0/second=0/count=/", 5),
    ("policy=1/capacity=2/first=0/second=0/count=1/page=/", 6),
    ("policy=1/capacity=2/first=0/second=0/count=1//page=7/", 6),
    // Numbers past the largest.
    ("policy=4294967297/capacity=2/first=0/second=0/count=0/", 1),
    ("policy=1/capacity=4294967296/first=0/second=0/count=0/", 2),
    ("policy=1/capacity=4294967298/first=0/second=0/count=0/", 2),
    ("policy=1/capacity=2/first=4294967296/second=0/count=0/", 3),
    ("policy=1/capacity=2/first=0/second=4294967296/count=0/", 4),
    ("policy=1/capacity=2/first=0/second=0/count=4294967296/", 5),
    (
        "policy=1/capacity=2/first=0/second=0/count=1/page=4294967296/",
        6,
    ),
    (
        "policy=1/capacity=2/first=0/second=0/count=1/page=42949672950/",
        6,
    ),
    (
        "policy=1/capacity=18446744073709551618/first=0/second=0/count=0/",
        2,
    ),
    (
        "policy=1/capacity=2/first=0/second=0/count=1/page=12345678901234567890/",
        6,
    ),
    // The first of two wrong lines is named.
    ("policy=x/capacity=y/first=0/second=0/count=0/", 1),
    (
        "policy=1/capacity=2/first=0/second=0/count=3/page=1/page=x/page=y/",
        7,
    ),
    // Reading comes before form and replay.
    ("policy=6/capacity=0/first=9/second=9/count=1/page=x/", 6),
    ("policy=6/capacity=0/first=9/second=9/count=0/x", 6),
    (
        "policy=1/capacity=2/first=0/second=0/count=2/page=4294967295/page=x/",
        7,
    ),
    // A count that the buffer has room for, without its page lines.
    ("policy=1/capacity=2/first=0/second=0/count=9362/", 6),
    (
        "policy=1/capacity=2/first=0/second=0/count=9362/page=7/page=7/",
        8,
    ),
];

/// Texts refused with another number than 10, `/` standing for byte 10.
const REFUSED: &[(&str, u32)] = &[
    // The count.
    ("policy=1/capacity=2/first=0/second=0/count=9363/", 8),
    ("policy=1/capacity=2/first=0/second=0/count=65535/", 8),
    (
        "policy=1/capacity=2/first=0/second=0/count=65535/page=x/",
        8,
    ),
    ("policy=1/capacity=2/first=0/second=0/count=65536/", 7),
    (
        "policy=1/capacity=2/first=0/second=0/count=65536/page=x/",
        7,
    ),
    ("policy=1/capacity=2/first=0/second=0/count=4294967295/", 7),
    ("policy=6/capacity=0/first=9/second=9/count=9363/", 8),
    ("policy=6/capacity=0/first=9/second=9/count=65536/", 7),
    // The policy.
    ("policy=0/capacity=2/first=0/second=0/count=1/page=7/", 1),
    ("policy=6/capacity=2/first=0/second=0/count=1/page=7/", 1),
    ("policy=4294967295/capacity=2/first=0/second=0/count=0/", 1),
    // The capacity.
    ("policy=1/capacity=0/first=0/second=0/count=1/page=7/", 2),
    ("policy=2/capacity=0/first=0/second=0/count=1/page=7/", 2),
    ("policy=3/capacity=0/first=1/second=0/count=1/page=7/", 2),
    ("policy=4/capacity=0/first=1/second=1/count=1/page=7/", 2),
    ("policy=5/capacity=0/first=0/second=0/count=1/page=7/", 2),
    ("policy=1/capacity=513/first=0/second=0/count=1/page=7/", 2),
    ("policy=2/capacity=513/first=0/second=0/count=1/page=7/", 2),
    ("policy=3/capacity=513/first=1/second=0/count=1/page=7/", 2),
    ("policy=4/capacity=513/first=1/second=1/count=1/page=7/", 2),
    ("policy=5/capacity=513/first=0/second=0/count=1/page=7/", 2),
    ("policy=1/capacity=4294967295/first=0/second=0/count=0/", 2),
    ("policy=3/capacity=1/first=1/second=0/count=1/page=7/", 2),
    ("policy=4/capacity=1/first=1/second=1/count=1/page=7/", 2),
    // First and second.
    ("policy=1/capacity=3/first=1/second=0/count=1/page=7/", 3),
    ("policy=1/capacity=3/first=0/second=1/count=1/page=7/", 3),
    ("policy=2/capacity=3/first=1/second=0/count=1/page=7/", 3),
    ("policy=2/capacity=3/first=0/second=1/count=1/page=7/", 3),
    ("policy=3/capacity=3/first=0/second=0/count=1/page=7/", 3),
    ("policy=3/capacity=3/first=3/second=0/count=1/page=7/", 3),
    ("policy=3/capacity=3/first=1/second=1/count=1/page=7/", 3),
    ("policy=4/capacity=3/first=0/second=1/count=1/page=7/", 3),
    ("policy=4/capacity=3/first=3/second=1/count=1/page=7/", 3),
    ("policy=4/capacity=3/first=1/second=0/count=1/page=7/", 3),
    ("policy=4/capacity=3/first=1/second=4/count=1/page=7/", 3),
    ("policy=5/capacity=3/first=1/second=0/count=1/page=7/", 3),
    ("policy=5/capacity=3/first=0/second=1/count=1/page=7/", 3),
    ("policy=1/capacity=3/first=4294967295/second=0/count=0/", 3),
    ("policy=1/capacity=3/first=0/second=4294967295/count=0/", 3),
    // The order 1, 2, 3, and 6 last.
    ("policy=6/capacity=0/first=9/second=9/count=0/", 1),
    ("policy=1/capacity=0/first=9/second=9/count=0/", 2),
    ("policy=1/capacity=3/first=9/second=9/count=0/", 3),
    (
        "policy=6/capacity=2/first=0/second=0/count=1/page=4294967295/",
        1,
    ),
    (
        "policy=1/capacity=0/first=0/second=0/count=1/page=4294967295/",
        2,
    ),
    (
        "policy=1/capacity=2/first=1/second=0/count=1/page=4294967295/",
        3,
    ),
    (
        "policy=1/capacity=2/first=0/second=0/count=1/page=4294967295/",
        6,
    ),
    (
        "policy=5/capacity=2/first=0/second=0/count=3/page=7/page=7/page=4294967295/",
        6,
    ),
];

/// Settings, the trace, and the hits, loads and swaps of its replay.
type Replayed = (&'static str, [u32; 4], &'static [u32], [u32; 3]);

/// Accepted texts: the bench sheet's rows, and settings at the ends of their ranges.
const REPLAYED: &[Replayed] = &[
    ("S1", [1, 2, 0, 0], &[7, 9, 7, 5], [1, 2, 1]),
    ("S2 at 1", [1, 1, 0, 0], CURVED, [0, 1, 11]),
    ("S2 at 2", [1, 2, 0, 0], CURVED, [0, 2, 10]),
    ("S2 at 3", [1, 3, 0, 0], CURVED, [2, 3, 7]),
    ("S2 at 4", [1, 4, 0, 0], CURVED, [4, 4, 4]),
    ("S2 at 5", [1, 5, 0, 0], CURVED, [7, 5, 0]),
    ("S3", [2, 3, 0, 0], &[1, 2, 3, 1, 4, 5], [1, 3, 2]),
    ("S4", [2, 2, 0, 0], &[1, 2, 1, 2, 3], [2, 2, 1]),
    ("S5", [3, 3, 1, 0], &[1, 2, 1, 2, 3, 4], [2, 3, 1]),
    (
        "S6",
        [4, 3, 1, 2],
        &[1, 2, 3, 4, 1, 4, 5, 6, 4, 7],
        [1, 3, 6],
    ),
    ("S7 to 2", [5, 2, 0, 0], &[1, 2, 1, 3, 2], [1, 2, 2]),
    ("S7", [5, 2, 0, 0], &[1, 2, 1, 3, 2, 1, 4, 5], [1, 2, 5]),
    ("S8", [5, 2, 0, 0], &[1, 2, 3], [0, 2, 1]),
    ("S9", [1, 2, 0, 0], &[], [0, 0, 0]),
    ("S9", [2, 2, 0, 0], &[], [0, 0, 0]),
    ("S9", [3, 2, 1, 0], &[], [0, 0, 0]),
    ("S9", [4, 2, 1, 1], &[], [0, 0, 0]),
    ("S9", [5, 2, 0, 0], &[], [0, 0, 0]),
    ("S10", [2, 1, 0, 0], &[8, 8, 9], [1, 1, 1]),
    ("S11", [1, 512, 0, 0], &[3, 4, 3], [1, 2, 0]),
    ("S11", [2, 512, 0, 0], &[3, 4, 3], [1, 2, 0]),
    ("S11", [3, 512, 511, 0], &[3, 4, 3], [1, 2, 0]),
    ("S11", [4, 512, 511, 512], &[3, 4, 3], [1, 2, 0]),
    ("S11", [5, 512, 0, 0], &[3, 4, 3], [1, 2, 0]),
    ("least", [1, 1, 0, 0], &[5, 5, 6, 5], [1, 1, 2]),
    ("least", [2, 1, 0, 0], &[5, 5, 6, 5], [1, 1, 2]),
    ("least", [3, 2, 1, 0], &[5, 5, 6, 7, 5], [2, 2, 1]),
    ("least", [4, 2, 1, 1], &[5, 6, 7, 5, 7], [1, 2, 2]),
    ("least", [5, 1, 0, 0], &[5, 5, 6, 5], [1, 1, 2]),
    ("page 0", [1, 2, 0, 0], &[0, 0], [1, 1, 0]),
    (
        "the largest page",
        [1, 2, 0, 0],
        &[NONE - 1, NONE - 1],
        [1, 1, 0],
    ),
];

/// The trace of S2, whose curve gives the hits.
const CURVED: &[u32] = &[1, 2, 3, 4, 1, 2, 5, 1, 2, 3, 4, 5];

/// All rows.
pub fn rows() -> Vec<Row> {
    let wrong_lines = WRONG_LINES
        .iter()
        .map(|(text, line)| refused(text, 10, *line));
    let others = REFUSED
        .iter()
        .map(|(text, number)| refused(text, *number, 0));
    once(row("the whole example", bytes(EXAMPLE), [0, 0, 1, 2, 1]))
        .chain(wrong_lines)
        .chain(others)
        .chain(REPLAYED.iter().map(replayed))
        .chain(long_rows())
        .chain(too_long_rows())
        .collect()
}

/// A row of a text and its five numbers.
fn row(what: &str, text: Vec<u8>, numbers: [u32; 5]) -> Row {
    Row {
        what: what.to_string(),
        text,
        numbers,
    }
}

/// The bytes of a text in which `/` stands for byte 10.
fn bytes(text: &str) -> Vec<u8> {
    text.replace('/', "\n").into_bytes()
}

/// A row with a refusal, `/` standing for byte 10 in its text.
fn refused(text: &str, number: u32, line: u32) -> Row {
    row(text, bytes(text), [number, line, 0, 0, 0])
}

/// A row without a refusal.
fn replayed((what, settings, trace, [hits, loads, swaps]): &Replayed) -> Row {
    let what = format!("{what}, policy {}", settings[0]);
    let text = text_of(*settings, trace.len() as u32, trace);
    row(&what, text, [0, 0, *hits, *loads, *swaps])
}

/// Texts of almost the most bytes: 48 bytes of five lines, then 7 bytes for each page 7 and 8 for each page of two digits.
fn long_rows() -> Vec<Row> {
    let longest = sevens_and(9_353, &[10, 11]);
    let sevens = sevens_and(9_355, &[]);
    let after_the_end = [&sevens[..], b"\n\n"].concat();
    let cut_off = longest[..65_534].to_vec();
    let lines_missing = sevens_counted(9_355, 9_362);
    let senseless = vec![b'x'; 65_535];
    vec![
        row("65,535 bytes", longest, [0, 0, 9_352, 1, 2]),
        row("65,533 bytes", sevens, [0, 0, 9_354, 1, 0]),
        row(
            "two bytes after the end",
            after_the_end,
            [10, 9_361, 0, 0, 0],
        ),
        row("the last byte cut off", cut_off, [10, 9_360, 0, 0, 0]),
        row("seven pages missing", lines_missing, [10, 9_361, 0, 0, 0]),
        row("65,535 bytes of no sense", senseless, [10, 1, 0, 0, 0]),
    ]
}

/// Texts of over the most bytes.
fn too_long_rows() -> Vec<Row> {
    let longer_page = sevens_and(9_352, &[10, 11, 12]);
    let longer_end = [&sevens_and(9_353, &[10, 11])[..], b"\n"].concat();
    vec![
        row("65,536 bytes by a page", longer_page, TOO_LONG),
        row("65,536 bytes by the end", longer_end, TOO_LONG),
        row("65,582 bytes", sevens_and(9_362, &[]), TOO_LONG),
        row("199,997 bytes", sevens_and(28_564, &[]), TOO_LONG),
        row("65,536 bytes of no sense", vec![b'x'; 65_536], TOO_LONG),
        row("65,537 bytes 0", vec![0; 65_537], TOO_LONG),
        row("1,000,000 bytes 10", vec![b'\n'; 1_000_000], TOO_LONG),
    ]
}

/// The text of LRU with capacity 1 and a trace of page 7, so many times, and more pages.
fn sevens_and(sevens: usize, more: &[u32]) -> Vec<u8> {
    let trace = [&vec![7; sevens][..], more].concat();
    text_of([1, 1, 0, 0], trace.len() as u32, &trace)
}

/// The text of LRU with capacity 1, any count, and page 7 so many times.
fn sevens_counted(sevens: usize, count: u32) -> Vec<u8> {
    text_of([1, 1, 0, 0], count, &vec![7; sevens])
}
