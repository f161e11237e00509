//! The numbered refusals.

/// Why a call was refused.
#[derive(Clone, Copy, Debug, PartialEq, Eq)]
pub enum Refusal {
    UnknownPolicy,
    CapacityRange,
    SettingRange,
    WordsLength,
    Unsound,
    NotAPage,
    TooLong,
    BufferTooShort,
    UnknownList,
    WrongLine(u32),
}

impl Refusal {
    /// The refusal's number, 1 to 10.
    pub fn number(self) -> u32 {
        match self {
            Refusal::UnknownPolicy => 1,
            Refusal::CapacityRange => 2,
            Refusal::SettingRange => 3,
            Refusal::WordsLength => 4,
            Refusal::Unsound => 5,
            Refusal::NotAPage => 6,
            Refusal::TooLong => 7,
            Refusal::BufferTooShort => 8,
            Refusal::UnknownList => 9,
            Refusal::WrongLine(_) => 10,
        }
    }

    /// The line that comes with refusal 10, 0 for every other refusal.
    pub fn line(self) -> u32 {
        match self {
            Refusal::WrongLine(line) => line,
            _ => 0,
        }
    }
}
