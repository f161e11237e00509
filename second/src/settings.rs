//! The policies, the settings that form accepts, and what is derived from them.

use crate::refusal::Refusal;

/// The number that is never a page, and that stands for an absent link, slot or page.
pub const NONE: u32 = 4_294_967_295;

/// The largest capacity of any directory.
pub const LARGEST_CAPACITY: u32 = 512;

/// The most pages of a trace, and the most bytes of a trace text.
pub const LONGEST: usize = 65_535;

/// Words of the header.
pub const HEADER_WORDS: usize = 16;

/// Words of one entry.
pub const ENTRY_WORDS: usize = 8;

/// The factor that spreads pages over the buckets.
const SPREAD: u64 = 2_654_435_769;

/// The five policies.
#[derive(Clone, Copy, Debug, PartialEq, Eq)]
pub enum Policy {
    Lru,
    Clock,
    Segmented,
    TwoQ,
    Arc,
}

impl Policy {
    /// All policies, in the order of their numbers.
    pub const ALL: [Policy; 5] = [
        Policy::Lru,
        Policy::Clock,
        Policy::Segmented,
        Policy::TwoQ,
        Policy::Arc,
    ];

    /// The policy with the given number.
    pub fn from_number(number: u32) -> Option<Policy> {
        Policy::ALL
            .into_iter()
            .find(|policy| policy.number() == number)
    }

    /// The policy's number, 1 to 5.
    pub fn number(self) -> u32 {
        match self {
            Policy::Lru => 1,
            Policy::Clock => 2,
            Policy::Segmented => 3,
            Policy::TwoQ => 4,
            Policy::Arc => 5,
        }
    }

    /// How many lists the policy uses, numbered from 1.
    pub fn lists(self) -> usize {
        match self {
            Policy::Lru | Policy::Clock => 1,
            Policy::Segmented => 2,
            Policy::TwoQ => 3,
            Policy::Arc => 4,
        }
    }

    /// Whether the list holds ghosts, pages remembered without a slot.
    pub fn is_ghost_list(self, list: usize) -> bool {
        matches!(
            (self, list),
            (Policy::TwoQ, 3) | (Policy::Arc, 3) | (Policy::Arc, 4)
        )
    }

    /// The smallest capacity of the policy.
    pub fn smallest_capacity(self) -> u32 {
        match self {
            Policy::Segmented | Policy::TwoQ => 2,
            Policy::Lru | Policy::Clock | Policy::Arc => 1,
        }
    }
}

/// Settings that form accepts.
#[derive(Clone, Copy, Debug, PartialEq, Eq)]
pub struct Settings {
    pub policy: Policy,
    pub capacity: u32,
    pub first: u32,
    pub second: u32,
}

impl Settings {
    /// The settings with these numbers, or refusal 1, 2 or 3.
    pub fn checked(
        policy: u32,
        capacity: u32,
        first: u32,
        second: u32,
    ) -> Result<Settings, Refusal> {
        let policy = Policy::from_number(policy).ok_or(Refusal::UnknownPolicy)?;
        if !(policy.smallest_capacity()..=LARGEST_CAPACITY).contains(&capacity) {
            return Err(Refusal::CapacityRange);
        }
        let (firsts, seconds) = match policy {
            Policy::Lru | Policy::Clock | Policy::Arc => (0..=0, 0..=0),
            Policy::Segmented => (1..=capacity - 1, 0..=0),
            Policy::TwoQ => (1..=capacity - 1, 1..=capacity),
        };
        if !firsts.contains(&first) || !seconds.contains(&second) {
            return Err(Refusal::SettingRange);
        }
        Ok(Settings {
            policy,
            capacity,
            first,
            second,
        })
    }

    /// The policy's number, the capacity, first and second.
    pub fn numbers(&self) -> [u32; 4] {
        let policy = self.policy.number();
        [policy, self.capacity, self.first, self.second]
    }

    /// The number of entries, E.
    pub fn entries(&self) -> usize {
        let entries = match self.policy {
            Policy::Lru | Policy::Clock | Policy::Segmented => self.capacity,
            Policy::TwoQ => self.capacity + self.second,
            Policy::Arc => 2 * self.capacity,
        };
        entries as usize
    }

    /// The index bits, k: the least number with 2^k at least E.
    pub fn index_bits(&self) -> u32 {
        self.entries().next_power_of_two().trailing_zeros()
    }

    /// The number of buckets, 2^k.
    pub fn buckets(&self) -> usize {
        1 << self.index_bits()
    }

    /// The exact length of the words.
    pub fn length(&self) -> usize {
        HEADER_WORDS + ENTRY_WORDS * self.entries() + self.buckets()
    }

    /// The bucket of a page.
    pub fn bucket_of(&self, page: u32) -> usize {
        bucket(page, self.index_bits())
    }
}

/// The top bits of the page's product, 0 when there are no bits; 64 bits wide, so that no shift is too far.
pub fn bucket(page: u32, bits: u32) -> usize {
    let product = (u64::from(page) * SPREAD) % (1 << 32);
    (product >> (32 - bits)) as usize
}
