//! Trace texts: the reader and the writer.

use crate::refusal::Refusal;
use crate::settings::LONGEST;

/// The settings and the count that an accepted text gives.
#[derive(Clone, Copy, Debug, Default, PartialEq, Eq)]
pub struct Heading {
    pub policy: u32,
    pub capacity: u32,
    pub first: u32,
    pub second: u32,
    pub count: u32,
}

/// The lines of a text not read yet.
struct Lines<'a> {
    rest: &'a [u8],
    number: u32,
}

impl<'a> Lines<'a> {
    /// All lines of a text.
    fn of(text: &'a [u8]) -> Lines<'a> {
        Lines {
            rest: text,
            number: 1,
        }
    }

    /// The number on the next line, which must have the given label.
    fn number_labelled(&mut self, label: &str) -> Result<u32, Refusal> {
        let wrong = Refusal::WrongLine(self.number);
        let end = self
            .rest
            .iter()
            .position(|byte| *byte == b'\n')
            .ok_or(wrong)?;
        let digits = self.rest[..end]
            .strip_prefix(label.as_bytes())
            .ok_or(wrong)?;
        let number = decimal(digits).ok_or(wrong)?;
        self.rest = &self.rest[end + 1..];
        self.number += 1;
        Ok(number)
    }

    /// Refuses bytes after the last line.
    fn end(&self) -> Result<(), Refusal> {
        if self.rest.is_empty() {
            Ok(())
        } else {
            Err(Refusal::WrongLine(self.number))
        }
    }
}

/// The number written by digits, with no leading zero but 0 itself.
fn decimal(digits: &[u8]) -> Option<u32> {
    let canonical = digits == b"0" || (!digits.is_empty() && digits[0] != b'0');
    if !canonical || !digits.iter().all(u8::is_ascii_digit) {
        return None;
    }
    digits.iter().try_fold(0u32, |number, digit| {
        number.checked_mul(10)?.checked_add(u32::from(digit - b'0'))
    })
}

/// Reads a trace text: the pages go to the front of the trace buffer.
pub fn read(text: &[u8], trace: &mut [u32]) -> Result<Heading, Refusal> {
    if text.len() > LONGEST {
        return Err(Refusal::TooLong);
    }
    let mut lines = Lines::of(text);
    let heading = read_heading(&mut lines)?;
    let count = heading.count as usize;
    if count > LONGEST {
        return Err(Refusal::TooLong);
    }
    if trace.len() < count {
        return Err(Refusal::BufferTooShort);
    }
    let pages = read_pages(&mut lines, count)?;
    trace[..count].copy_from_slice(&pages);
    Ok(heading)
}

/// Reads the first five lines.
fn read_heading(lines: &mut Lines) -> Result<Heading, Refusal> {
    Ok(Heading {
        policy: lines.number_labelled("policy=")?,
        capacity: lines.number_labelled("capacity=")?,
        first: lines.number_labelled("first=")?,
        second: lines.number_labelled("second=")?,
        count: lines.number_labelled("count=")?,
    })
}

/// Reads the page lines, after which the text must end.
fn read_pages(lines: &mut Lines, count: usize) -> Result<Vec<u32>, Refusal> {
    let pages = (0..count)
        .map(|_| lines.number_labelled("page="))
        .collect::<Result<Vec<u32>, Refusal>>()?;
    lines.end()?;
    Ok(pages)
}

/// Writes a trace text to the front of the result and gives its length.
pub fn write(
    policy: u32,
    capacity: u32,
    first: u32,
    second: u32,
    trace: &[u32],
    result: &mut [u8],
) -> Result<u32, Refusal> {
    if trace.len() > LONGEST {
        return Err(Refusal::TooLong);
    }
    let mut text = format!(
        "policy={policy}\ncapacity={capacity}\nfirst={first}\nsecond={second}\ncount={}\n",
        trace.len()
    );
    for page in trace {
        text.push_str(&format!("page={page}\n"));
    }
    if result.len() < text.len() {
        return Err(Refusal::BufferTooShort);
    }
    result[..text.len()].copy_from_slice(text.as_bytes());
    Ok(text.len() as u32)
}
