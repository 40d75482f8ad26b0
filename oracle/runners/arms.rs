//! The original with a counter in every block of the ported functions, over seeded calls.

#[path = "../original/original.rs"]
mod original;

use calls::compare;
use calls::generator::Profile;
use std::env;
use std::sync::atomic::{AtomicU64, Ordering};

const MOST_BLOCKS: usize = 1_000;

static REACHED: [AtomicU64; MOST_BLOCKS] = [const { AtomicU64::new(0) }; MOST_BLOCKS];

/// Called by the original at the start of each block.
pub fn reached(block: usize) {
    REACHED[block].fetch_add(1, Ordering::Relaxed);
}

/// Arguments: calls, seed and number of blocks. Prints each block's count.
fn main() {
    let mut numbers = env::args().skip(1).map(|argument| argument.parse::<u64>().expect("a number"));
    let mut number = || numbers.next().expect("three numbers");
    let (calls, seed, blocks) = (number(), number(), number());
    compare::run(&mut original::Original::default(), seed, Profile::default(), calls, |_, _, _| {});
    for count in &REACHED[..blocks as usize] {
        println!("{}", count.load(Ordering::Relaxed));
    }
}
