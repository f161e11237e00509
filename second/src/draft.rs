//! Trace texts to be read: right ones, ones with any count, and damaged ones.

use std::ops::Range;

use crate::random::Random;

/// Pieces that damages put into a text.
const PIECES: [&[u8]; 16] = [
    b"0",
    b"00",
    b"9",
    b"\n",
    b"=",
    b"-",
    b" ",
    b"\r\n",
    b"page=",
    b"page=1\n",
    b"count=",
    b"4294967295",
    b"4294967296",
    b"99999999999",
    b"\x00",
    b"\xff",
];

/// The text of settings, a count and a trace.
pub fn text_of(settings: [u32; 4], count: u32, trace: &[u32]) -> Vec<u8> {
    let [policy, capacity, first, second] = settings;
    let mut text = format!(
        "policy={policy}\ncapacity={capacity}\nfirst={first}\nsecond={second}\ncount={count}\n"
    );
    for page in trace {
        text.push_str(&format!("page={page}\n"));
    }
    text.into_bytes()
}

/// The text with a byte changed, taken out or cut off, a piece put in, or a line doubled or lost.
pub fn damaged(random: &mut Random, text: &[u8]) -> Vec<u8> {
    let mut damaged = text.to_vec();
    let place = random.below(text.len());
    match random.below(7) {
        0 => damaged[place] = random.next() as u8,
        1 => damaged[place] = random.pick(b"0123456789=\npage"),
        2 => {
            damaged.remove(place);
        }
        3 => damaged.truncate(place),
        4 => {
            let piece = random.pick(&PIECES);
            damaged.splice(place..place, piece.iter().copied());
        }
        5 => {
            let line = line_at(text, place);
            damaged.splice(line.start..line.start, text[line.clone()].iter().copied());
        }
        _ => {
            damaged.drain(line_at(text, place));
        }
    }
    damaged
}

/// The line around a place, with its end.
fn line_at(text: &[u8], place: usize) -> Range<usize> {
    let start = text[..place]
        .iter()
        .rposition(|byte| *byte == b'\n')
        .map_or(0, |end| end + 1);
    let end = text[place..]
        .iter()
        .position(|byte| *byte == b'\n')
        .map_or(text.len(), |end| place + end + 1);
    start..end
}
