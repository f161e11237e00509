//! The public calls over words, all but those over trace texts.

use crate::audit::first_broken_rule;
use crate::codec::{decode, encode};
use crate::model::Directory;
use crate::policies::{self, Answer};
use crate::refusal::Refusal;
use crate::settings::{Settings, LARGEST_CAPACITY, LONGEST, NONE};

/// The answer to a look.
#[derive(Clone, Copy, Debug, PartialEq, Eq)]
pub enum Looked {
    Absent,
    Held(u32),
    Remembered,
}

/// How often a replay answered what.
#[derive(Clone, Copy, Debug, Default, PartialEq, Eq)]
pub struct Counts {
    pub hits: u32,
    pub loads: u32,
    pub swaps: u32,
}

impl Counts {
    /// Counts one answer.
    pub fn add(&mut self, answer: Answer) {
        match answer {
            Answer::Hit { .. } => self.hits += 1,
            Answer::Loaded { .. } => self.loads += 1,
            Answer::Swapped { .. } => self.swaps += 1,
        }
    }
}

/// The length of words that form asks for.
pub fn words_for(policy: u32, capacity: u32, first: u32, second: u32) -> Result<u32, Refusal> {
    Settings::checked(policy, capacity, first, second).map(|settings| settings.length() as u32)
}

/// Writes a fresh directory over the words.
pub fn form(
    policy: u32,
    capacity: u32,
    first: u32,
    second: u32,
    words: &mut [u32],
) -> Result<(), Refusal> {
    let settings = Settings::checked(policy, capacity, first, second)?;
    if words.len() != settings.length() {
        return Err(Refusal::WordsLength);
    }
    words.copy_from_slice(&encode(&Directory::fresh(settings)));
    Ok(())
}

/// Whether the words are a sound directory.
pub fn audit(words: &[u32]) -> bool {
    first_broken_rule(words) == 0
}

/// Asks the directory for a page.
pub fn request(words: &mut [u32], page: u32) -> Result<Answer, Refusal> {
    let mut directory = open(words)?;
    check_page(page)?;
    let answer = policies::request(&mut directory, page);
    words.copy_from_slice(&encode(&directory));
    Ok(answer)
}

/// Asks the directory for a page and gives only its slot.
pub fn slot_for(words: &mut [u32], page: u32) -> Result<u32, Refusal> {
    request(words, page).map(Answer::slot)
}

/// Says whether the page is held or remembered, and changes nothing.
pub fn look(words: &[u32], page: u32) -> Result<Looked, Refusal> {
    let directory = open(words)?;
    check_page(page)?;
    let Some(place) = directory.find(page) else {
        return Ok(Looked::Absent);
    };
    Ok(directory.list(place.list)[place.position]
        .slot
        .map_or(Looked::Remembered, Looked::Held))
}

/// Writes a list's pages, front first, and says how many; CLOCK's in slot order.
pub fn report(words: &[u32], list: u32, result: &mut [u32]) -> Result<u32, Refusal> {
    let directory = open(words)?;
    let list = list as usize;
    if !(1..=directory.settings.policy.lists()).contains(&list) {
        return Err(Refusal::UnknownList);
    }
    let members = directory.list(list);
    if result.len() < members.len() {
        return Err(Refusal::BufferTooShort);
    }
    for (word, member) in result.iter_mut().zip(members) {
        *word = member.page;
    }
    Ok(members.len() as u32)
}

/// Does the requests of a trace in turn and counts the answers.
pub fn replay(words: &mut [u32], trace: &[u32]) -> Result<Counts, Refusal> {
    let mut directory = open(words)?;
    check_trace(trace)?;
    let counts = run(&mut directory, trace);
    words.copy_from_slice(&encode(&directory));
    Ok(counts)
}

/// Writes the LRU hits for each capacity up to the largest, and the last LRU list at the largest.
pub fn curve(
    largest: u32,
    trace: &[u32],
    result: &mut [u32],
    work: &mut [u32],
) -> Result<(), Refusal> {
    if !(1..=LARGEST_CAPACITY).contains(&largest) {
        return Err(Refusal::CapacityRange);
    }
    check_trace(trace)?;
    let count = largest as usize;
    if result.len() < count || work.len() < count {
        return Err(Refusal::BufferTooShort);
    }
    for capacity in 1..=largest {
        let mut directory = Directory::fresh(Settings::checked(1, capacity, 0, 0)?);
        result[capacity as usize - 1] = run(&mut directory, trace).hits;
        if capacity == largest {
            let pages = directory.list(1).iter().map(|member| member.page);
            work[..count].fill(NONE);
            work.iter_mut()
                .zip(pages)
                .for_each(|(word, page)| *word = page);
        }
    }
    Ok(())
}

/// The directory that sound words stand for.
fn open(words: &[u32]) -> Result<Directory, Refusal> {
    if audit(words) {
        decode(words).ok_or(Refusal::Unsound)
    } else {
        Err(Refusal::Unsound)
    }
}

/// Refuses what is no page.
fn check_page(page: u32) -> Result<(), Refusal> {
    if page == NONE {
        Err(Refusal::NotAPage)
    } else {
        Ok(())
    }
}

/// Refuses a trace that is too long or has what is no page.
fn check_trace(trace: &[u32]) -> Result<(), Refusal> {
    if trace.len() > LONGEST {
        return Err(Refusal::TooLong);
    }
    trace.iter().try_for_each(|page| check_page(*page))
}

/// Does the requests of a trace in turn.
fn run(directory: &mut Directory, trace: &[u32]) -> Counts {
    let mut counts = Counts::default();
    for page in trace {
        counts.add(policies::request(directory, *page));
    }
    counts
}
