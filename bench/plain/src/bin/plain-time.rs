//! How long loading and submitting takes, at several sizes: the median of many rounds.

use plain::{generate, Activation, Checker, Size};
use std::hint::black_box;
use std::time::Instant;

const ROUNDS: usize = 31;
const CALLS: usize = 2_000;

fn main() {
    println!("areas borders bids load_ns submit_ns");
    for (part, whole) in [(1, 8), (1, 4), (1, 2), (1, 1)] {
        let size = Size::FULL.fraction(part, whole);
        let (case, proposal) = generate(1, size);
        let mut checker = Checker::<Activation>::new();
        let load = median(|| checker.load(black_box(&case)).expect("the case is right"));
        let submit = median(|| checker.submit(black_box(&proposal)).expect("the proposal is taken"));
        println!("{} {} {} {load} {submit}", size.areas, size.borders, size.bids);
    }
}

/// Nanoseconds for one call.
fn median(mut call: impl FnMut()) -> u128 {
    let mut rounds: Vec<u128> = (0..ROUNDS)
        .map(|_| {
            let start = Instant::now();
            for _ in 0..CALLS {
                call();
            }
            start.elapsed().as_nanos() / CALLS as u128
        })
        .collect();
    rounds.sort_unstable();
    rounds[ROUNDS / 2]
}
