//! Reproducible pseudo-random numbers, the same as in `crates/test_texts`.

/// Returns the first random number of a case.
pub fn seed(number: u32) -> u32 {
    number.wrapping_mul(2_654_435_769).wrapping_add(1)
}

pub fn next(x: u32) -> u32 {
    x.wrapping_mul(1_664_525).wrapping_add(1_013_904_223)
}

/// Returns a number below `end`, taken from the upper half of x.
pub fn below(x: u32, end: u32) -> u32 {
    (x >> 16) % end
}
