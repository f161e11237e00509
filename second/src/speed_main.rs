//! How long the static library takes for whole traces at the largest capacity.

#[allow(dead_code)]
mod pagedir;

use std::time::Instant;

use pagedir::{pd_curve, pd_form, pd_replay, pd_words};

/// The largest capacity.
const CAPACITY: u32 = 512;

/// Settings of each policy at the largest capacity: policy, first, second.
const POLICIES: [(u32, u32, u32); 5] =
    [(1, 0, 0), (2, 0, 0), (3, 256, 0), (4, 128, 256), (5, 0, 0)];

/// A fresh directory of a policy.
fn directory(policy: u32, first: u32, second: u32) -> Vec<u32> {
    let mut length = [0u32];
    let mut words = Vec::new();
    // SAFETY: each pointer is that of a live buffer of the length handed over beside it.
    unsafe {
        pd_words(policy, CAPACITY, first, second, length.as_mut_ptr());
        words.resize(length[0] as usize, 0);
        let refused = pd_form(
            policy,
            CAPACITY,
            first,
            second,
            words.as_mut_ptr(),
            words.len(),
        );
        assert_eq!(refused, 0);
    }
    words
}

/// Times a replay of the trace under each policy.
fn replays(name: &str, trace: &[u32]) {
    for (policy, first, second) in POLICIES {
        let mut words = directory(policy, first, second);
        let mut answer = [0u32; 3];
        let start = Instant::now();
        // SAFETY: as above.
        let refused = unsafe {
            pd_replay(
                words.as_mut_ptr(),
                words.len(),
                trace.as_ptr(),
                trace.len(),
                answer.as_mut_ptr(),
            )
        };
        let time = start.elapsed();
        assert_eq!(refused, 0);
        println!("{name}, policy {policy}: {time:?}, hits, loads, swaps {answer:?}");
    }
}

/// Times the curve of the trace.
fn curve(name: &str, trace: &[u32]) {
    let mut result = vec![0u32; CAPACITY as usize];
    let mut work = vec![0u32; CAPACITY as usize];
    let start = Instant::now();
    // SAFETY: as above.
    let refused = unsafe {
        pd_curve(
            CAPACITY,
            trace.as_ptr(),
            trace.len(),
            result.as_mut_ptr(),
            result.len(),
            work.as_mut_ptr(),
            work.len(),
        )
    };
    let time = start.elapsed();
    assert_eq!(refused, 0);
    println!(
        "{name}, curve: {time:?}, hits at the largest {}",
        result[511]
    );
}

/// A page of 1,300, spread by a multiplication.
fn drawn_page(i: u32) -> u32 {
    (i.wrapping_mul(2_246_822_519) >> 7) % 1_300
}

/// Times a scan of new pages and a trace of pages drawn from 1,300.
fn main() {
    let scan: Vec<u32> = (0..65_535).collect();
    let drawn: Vec<u32> = scan.iter().map(|i| drawn_page(*i)).collect();
    for (name, trace) in [("scan", &scan), ("drawn", &drawn)] {
        replays(name, trace);
        curve(name, trace);
    }
}
