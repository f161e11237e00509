//! Random numbers from a seed, and random traces, settings and sound directories.

use crate::model::{Directory, Member};
use crate::settings::{Policy, Settings};

/// A splitmix64 generator.
pub struct Random {
    state: u64,
}

impl Random {
    /// The generator with the given seed.
    pub fn new(seed: u64) -> Random {
        Random { state: seed }
    }

    /// The next number.
    pub fn next(&mut self) -> u64 {
        self.state = self.state.wrapping_add(0x9E37_79B9_7F4A_7C15);
        let mut mixed = self.state;
        mixed = (mixed ^ (mixed >> 30)).wrapping_mul(0xBF58_476D_1CE4_E5B9);
        mixed = (mixed ^ (mixed >> 27)).wrapping_mul(0x94D0_49BB_1331_11EB);
        mixed ^ (mixed >> 31)
    }

    /// A number below a bound that is at least 1.
    pub fn below(&mut self, bound: usize) -> usize {
        (self.next() % bound as u64) as usize
    }

    /// A number from a range, both ends included.
    pub fn between(&mut self, least: u32, most: u32) -> u32 {
        least + self.below((most - least) as usize + 1) as u32
    }

    /// Yes, once in so many times.
    pub fn one_in(&mut self, times: usize) -> bool {
        self.below(times) == 0
    }

    /// One of the items.
    pub fn pick<T: Copy>(&mut self, items: &[T]) -> T {
        items[self.below(items.len())]
    }

    /// Brings the items into a random order.
    pub fn shuffle<T>(&mut self, items: &mut [T]) {
        for last in (1..items.len()).rev() {
            let other = self.below(last + 1);
            items.swap(last, other);
        }
    }
}

/// Different pages, small ones or ones from the whole range with the largest among them.
pub fn page_pool(random: &mut Random, count: usize, large: bool) -> Vec<u32> {
    let mut pool: Vec<u32> = if large {
        vec![u32::MAX - 1]
    } else {
        Vec::new()
    };
    while pool.len() < count {
        let page = if large {
            random.below(u32::MAX as usize) as u32
        } else {
            random.below(3 * count) as u32
        };
        if !pool.contains(&page) {
            pool.push(page);
        }
    }
    pool
}

/// A trace over a pool of pages, in which late pages tend to come again.
pub fn trace_over(random: &mut Random, pool: &[u32], length: usize) -> Vec<u32> {
    let mut trace: Vec<u32> = Vec::with_capacity(length);
    while trace.len() < length {
        let again = !trace.is_empty() && random.one_in(5);
        let page = if again {
            let back = 1 + random.below(trace.len().min(4));
            trace[trace.len() - back]
        } else {
            random.pick(pool)
        };
        trace.push(page);
    }
    trace
}

/// Random settings of a policy at a capacity, which is raised to the policy's smallest.
pub fn settings_at(random: &mut Random, policy: Policy, capacity: u32) -> Settings {
    let capacity = capacity.max(policy.smallest_capacity());
    let (first, second) = match policy {
        Policy::Lru | Policy::Clock | Policy::Arc => (0, 0),
        Policy::Segmented => (random.between(1, capacity - 1), 0),
        Policy::TwoQ => (random.between(1, capacity - 1), random.between(1, capacity)),
    };
    Settings {
        policy,
        capacity,
        first,
        second,
    }
}

/// A random sound directory, whether requests can reach it or not, with pages from a pool of at least E + 1.
pub fn sound_directory(random: &mut Random, settings: Settings, pool: &[u32]) -> Directory {
    let mut directory = Directory::fresh(settings);
    let mut pages = pool.to_vec();
    random.shuffle(&mut pages);
    for (index, size) in list_sizes(random, &settings).into_iter().enumerate() {
        let members = pages.drain(..size).map(|page| Member {
            page,
            slot: None,
            mark: false,
        });
        directory.lists[index] = members.collect();
    }
    give_slots(random, &mut directory);
    give_entries(random, &mut directory);
    directory.dial = match settings.policy {
        Policy::Lru | Policy::Segmented | Policy::TwoQ => 0,
        Policy::Clock => random.between(0, settings.capacity - 1),
        Policy::Arc => random.between(0, settings.capacity),
    };
    directory
}

/// Random sizes of the lists within their limits.
fn list_sizes(random: &mut Random, settings: &Settings) -> Vec<usize> {
    let capacity = settings.capacity;
    let held = if random.one_in(3) {
        random.between(0, capacity)
    } else {
        capacity
    };
    let sizes = match settings.policy {
        Policy::Lru | Policy::Clock => vec![held],
        Policy::Segmented => {
            let protected = random.between(0, held.min(settings.first));
            vec![held - protected, protected]
        }
        Policy::TwoQ => {
            let once = random.between(0, held);
            vec![once, held - once, random.between(0, settings.second)]
        }
        Policy::Arc => {
            let once = random.between(0, held);
            let may_remember = held == capacity;
            let b1 = if may_remember {
                random.between(0, capacity - once)
            } else {
                0
            };
            let b2 = if may_remember {
                random.between(0, capacity - b1)
            } else {
                0
            };
            vec![once, held - once, b1, b2]
        }
    };
    sizes.into_iter().map(|size| size as usize).collect()
}

/// Gives the held pages the slots from 0 up, in a random order but for CLOCK, and random marks for CLOCK.
fn give_slots(random: &mut Random, directory: &mut Directory) {
    let policy = directory.settings.policy;
    let held: usize = (1..=policy.lists())
        .filter(|list| !policy.is_ghost_list(*list))
        .map(|list| directory.size(list))
        .sum();
    let mut slots: Vec<u32> = (0..held as u32).collect();
    if policy != Policy::Clock {
        random.shuffle(&mut slots);
    }
    let mut slots = slots.into_iter();
    for list in (1..=policy.lists()).filter(|list| !policy.is_ghost_list(*list)) {
        for member in directory.list_mut(list) {
            member.slot = slots.next();
            member.mark = policy == Policy::Clock && random.one_in(2);
        }
    }
}

/// Gives the pages entries and chain places in a random order, but CLOCK's pages the entries of their slots.
fn give_entries(random: &mut Random, directory: &mut Directory) {
    let mut numbers: Vec<usize> = (0..directory.table.len()).collect();
    if directory.settings.policy != Policy::Clock {
        random.shuffle(&mut numbers);
    }
    let pages: Vec<u32> = directory
        .lists
        .iter()
        .flatten()
        .map(|member| member.page)
        .collect();
    for (page, number) in pages.into_iter().zip(numbers) {
        directory.table[number] = Some(page);
        directory.chains[directory.settings.bucket_of(page)].push(number);
    }
    directory
        .chains
        .iter_mut()
        .for_each(|chain| random.shuffle(chain));
}
