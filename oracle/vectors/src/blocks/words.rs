//! Random 64-bit words.

use crate::random::next;

/// Returns words whose lowest `zeros` bits are 0, each made from four random numbers.
pub fn words(count: u32, zeros: u32, seed: u32) -> Vec<u64> {
    let mut x = seed;
    let mut words = Vec::new();
    for _ in 0..count {
        words.push(word(x) >> zeros << zeros);
        x = four_on(x);
    }
    words
}

/// Returns the fourth random number after x.
pub fn four_on(x: u32) -> u32 {
    next(next(next(next(x))))
}

/// Returns the upper halves of x and of the next three random numbers, concatenated.
fn word(x: u32) -> u64 {
    let b = next(x);
    let c = next(b);
    let d = next(c);
    let half = |first: u32, second: u32| u64::from(first >> 16 << 16 | second >> 16);
    half(x, b) << 32 | half(c, d)
}
