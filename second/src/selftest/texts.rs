//! Trace texts: hand-written ones, round trips and changed bytes.

use crate::random::{page_pool, trace_over, Random};
use crate::refusal::Refusal;
use crate::text::{read, write, Heading};

use super::tally::Tally;

/// Random texts written and read back.
const ROUND_TRIPS: usize = 400;
/// Changed bytes of each random text.
const CHANGES: usize = 60;

/// Texts, `/` standing for byte 10, and why they are refused when there is room for three pages.
const WRONG_TEXTS: &[(&str, Refusal)] = &[
    ("", line(1)),
    ("/", line(1)),
    ("policy=", line(1)),
    ("policy=/", line(1)),
    ("policy=1", line(1)),
    ("Policy=1/", line(1)),
    (" policy=1/", line(1)),
    ("policy= 1/", line(1)),
    ("policy=+1/", line(1)),
    ("policy=-1/", line(1)),
    ("policy=01/", line(1)),
    ("policy=00/", line(1)),
    ("policy=1 /", line(1)),
    ("policy=1\r/", line(1)),
    ("policy=4294967296/", line(1)),
    ("policy=10000000000/", line(1)),
    ("policy=99999999999999999999999999/", line(1)),
    ("policy=1/", line(2)),
    ("policy=1//", line(2)),
    ("policy=1/first=2/", line(2)),
    ("policy=1/capacity=2/first=x/second=0/count=0/", line(3)),
    ("policy=1/capacity=2/first=0/second=0", line(4)),
    ("policy=1/capacity=2/first=0/second=0/", line(5)),
    ("policy=1/capacity=2/first=0/second=0/count=70000", line(5)),
    (
        "policy=1/capacity=2/first=0/second=0/count=65536/",
        Refusal::TooLong,
    ),
    (
        "policy=1/capacity=2/first=0/second=0/count=4294967295/page=x/",
        Refusal::TooLong,
    ),
    (
        "policy=1/capacity=2/first=0/second=0/count=65535/page=x/",
        Refusal::BufferTooShort,
    ),
    (
        "policy=1/capacity=2/first=0/second=0/count=4/page=x/",
        Refusal::BufferTooShort,
    ),
    ("policy=1/capacity=2/first=0/second=0/count=3/", line(6)),
    (
        "policy=1/capacity=2/first=0/second=0/count=3/page=1/",
        line(7),
    ),
    (
        "policy=1/capacity=2/first=0/second=0/count=3/page=1/page=2/page=3",
        line(8),
    ),
    (
        "policy=1/capacity=2/first=0/second=0/count=3/page=1/page=02/page=3/",
        line(7),
    ),
    (
        "policy=1/capacity=2/first=0/second=0/count=3/page=1/page=2/page=3//",
        line(9),
    ),
    (
        "policy=1/capacity=2/first=0/second=0/count=3/page=1/page=2/page=3/page=4/",
        line(9),
    ),
    (
        "policy=1/capacity=2/first=0/second=0/count=0/page=1/",
        line(6),
    ),
    ("policy=1/capacity=2/first=0/second=0/count=0/x", line(6)),
];

/// The refusal that names a line.
const fn line(number: u32) -> Refusal {
    Refusal::WrongLine(number)
}

/// Runs all text checks.
pub fn run(tally: &mut Tally, random: &mut Random) -> String {
    wrong_texts(tally);
    right_texts(tally);
    lengths(tally);
    writer(tally);
    for _ in 0..ROUND_TRIPS {
        round_trip(tally, random);
    }
    format!(
        "{ROUND_TRIPS} round trips, {} changed bytes",
        ROUND_TRIPS * CHANGES
    )
}

/// The bytes of a text in which `/` stands for byte 10.
fn bytes(text: &str) -> Vec<u8> {
    text.replace('/', "\n").into_bytes()
}

/// Reads the texts that are refused, with room for three pages.
fn wrong_texts(tally: &mut Tally) {
    for (text, refusal) in WRONG_TEXTS {
        let mut trace = [5; 3];
        tally.equal(text, read(&bytes(text), &mut trace), Err(*refusal));
        tally.equal("trace of a refused text", trace, [5; 3]);
    }
}

/// Texts that are accepted whatever their settings.
fn right_texts(tally: &mut Tally) {
    let mut trace = [5; 3];
    let text = "policy=9/capacity=0/first=4294967295/second=10/count=2/page=4294967295/page=0/";
    let expected = Heading {
        policy: 9,
        capacity: 0,
        first: 4_294_967_295,
        second: 10,
        count: 2,
    };
    tally.equal(
        "a text with odd settings",
        read(&bytes(text), &mut trace),
        Ok(expected),
    );
    tally.equal("its trace", trace, [4_294_967_295, 0, 5]);
    let text = "policy=1/capacity=2/first=0/second=0/count=0/";
    let expected = Heading {
        policy: 1,
        capacity: 2,
        ..Heading::default()
    };
    tally.equal(
        "a text without pages",
        read(&bytes(text), &mut []),
        Ok(expected),
    );
}

/// Texts of 65,535 and of 65,536 bytes.
fn lengths(tally: &mut Tally) {
    let heading = "policy=1/capacity=1/first=0/second=0/count=9355/";
    let pages = (65_535 - heading.len()) / 7;
    let spare = (65_535 - heading.len()) % 7;
    let digits = "1".repeat(1 + spare);
    let text = format!("{heading}{}page={digits}/", "page=0/".repeat(pages - 1));
    tally.equal("bytes of the longest text", text.len(), 65_535);
    tally.equal("pages of the longest text", pages, 9_355);
    let mut trace = vec![5; pages];
    tally.equal(
        "the longest text",
        read(&bytes(&text), &mut trace).map(|heading| heading.count),
        Ok(9_355),
    );
    let text = format!("x{text}");
    tally.equal(
        "a text too long",
        read(&bytes(&text), &mut trace),
        Err(Refusal::TooLong),
    );
}

/// The writer's answers and refusals.
fn writer(tally: &mut Tally) {
    let expected =
        bytes("policy=0/capacity=4294967295/first=10/second=1/count=2/page=4294967295/page=0/");
    for spare in 0..3 {
        let mut result = vec![b'#'; expected.len() + spare];
        let answer = write(0, 4_294_967_295, 10, 1, &[4_294_967_295, 0], &mut result);
        tally.equal("length written", answer, Ok(expected.len() as u32));
        tally.equal("text written", &result[..expected.len()], &expected[..]);
        tally.check(
            result[expected.len()..].iter().all(|byte| *byte == b'#'),
            || "later bytes".to_string(),
        );
    }
    let mut result = vec![b'#'; expected.len() - 1];
    let answer = write(0, 4_294_967_295, 10, 1, &[4_294_967_295, 0], &mut result);
    tally.equal("result too short", answer, Err(Refusal::BufferTooShort));
    tally.check(result.iter().all(|byte| *byte == b'#'), || {
        "bytes of a refused write".to_string()
    });
    tally.equal(
        "trace too long",
        write(1, 1, 0, 0, &vec![0; 65_536], &mut []),
        Err(Refusal::TooLong),
    );
    let mut result = vec![0; 1_200_000];
    let answer = write(1, 1, 0, 0, &vec![4_294_967_295; 65_535], &mut result);
    tally.equal("the longest trace", answer, Ok(49 + 16 * 65_535));
}

/// Writes a random text, reads it back, and changes single bytes of it.
fn round_trip(tally: &mut Tally, random: &mut Random) {
    let pool = page_pool(random, 6, true);
    let length = random.below(7);
    let trace = trace_over(random, &pool, length);
    let count = trace.len() as u32;
    let settings: Vec<u32> = (0..4)
        .map(|_| {
            if random.one_in(2) {
                random.below(12) as u32
            } else {
                random.next() as u32
            }
        })
        .collect();
    let heading = Heading {
        policy: settings[0],
        capacity: settings[1],
        first: settings[2],
        second: settings[3],
        count,
    };
    let mut text = vec![0; 300];
    let written = write_heading(&heading, &trace, &mut text).expect("room for the text");
    text.truncate(written as usize);
    let mut result = vec![5; 9];
    tally.equal(
        "round trip's heading",
        read(&text, &mut result),
        Ok(heading),
    );
    tally.equal("round trip's trace", &result[..trace.len()], &trace[..]);
    tally.check(result[trace.len()..].iter().all(|page| *page == 5), || {
        "rest of the trace buffer".to_string()
    });
    for _ in 0..CHANGES {
        changed_byte(tally, random, &text);
    }
}

/// Writes a text from a heading.
fn write_heading(heading: &Heading, trace: &[u32], text: &mut [u8]) -> Result<u32, Refusal> {
    write(
        heading.policy,
        heading.capacity,
        heading.first,
        heading.second,
        trace,
        text,
    )
}

/// Changes one byte, and sometimes cuts the text: the reader agrees with the second opinion.
fn changed_byte(tally: &mut Tally, random: &mut Random, text: &[u8]) {
    let mut changed = text.to_vec();
    let place = random.below(text.len());
    changed[place] = if random.one_in(4) {
        random.next() as u8
    } else {
        random.pick(b"0123456789\n=p ")
    };
    if random.one_in(10) {
        changed.truncate(random.below(text.len()));
    }
    let room = random.pick(&[9, 9, 9, 3]);
    let mut trace = vec![5; room];
    let read_trace =
        read(&changed, &mut trace).map(|heading| trace[..heading.count as usize].to_vec());
    let expected = second_opinion(&changed, room);
    tally.check(read_trace == expected, || {
        format!(
            "{:?}: saw {read_trace:?}, expected {expected:?}",
            String::from_utf8_lossy(&changed)
        )
    });
}

/// The trace of a short text or its refusal, found by splitting it into lines and writing each number again.
fn second_opinion(text: &[u8], room: usize) -> Result<Vec<u32>, Refusal> {
    let mut lines: Vec<&[u8]> = text.split(|byte| *byte == b'\n').collect();
    let unended = lines.pop().unwrap_or_default();
    let number_on = |index: usize, label: &str| {
        let line = lines
            .get(index)
            .and_then(|line| std::str::from_utf8(line).ok());
        let number: Option<u32> = line
            .and_then(|line| line.get(label.len()..))
            .and_then(|digits| digits.parse().ok());
        number
            .filter(|number| line == Some(format!("{label}{number}").as_str()))
            .ok_or(Refusal::WrongLine(index as u32 + 1))
    };
    for (index, label) in ["policy=", "capacity=", "first=", "second="]
        .iter()
        .enumerate()
    {
        number_on(index, label)?;
    }
    let count = number_on(4, "count=")? as usize;
    if count > 65_535 {
        return Err(Refusal::TooLong);
    }
    if count > room {
        return Err(Refusal::BufferTooShort);
    }
    let trace = (5..5 + count)
        .map(|index| number_on(index, "page="))
        .collect::<Result<Vec<u32>, Refusal>>()?;
    if lines.len() > 5 + count || !unended.is_empty() {
        return Err(Refusal::WrongLine(count as u32 + 6));
    }
    Ok(trace)
}
