//! Checksums by which answers are compared.

use oracle::{ComposedLine, Tally};

/// Odd, so that answers which differ in only one number, or in half of one entry, have different
/// checksums.
const ODD: u32 = 2_654_435_769;

/// Returns a checksum extended by a number.
fn with_number(sum: u32, number: u32) -> u32 {
    sum.wrapping_mul(ODD).wrapping_add(number)
}

/// Returns the checksum of numbers.
pub fn sum_numbers(numbers: impl IntoIterator<Item = u32>) -> u32 {
    numbers.into_iter().fold(0, with_number)
}

/// Returns the checksum of entries (composed lines or cells): of their count, then of each one's
/// upper and lower half.
pub fn sum_entries(entries: impl ExactSizeIterator<Item = u64>) -> u32 {
    let count = entries.len() as u32;
    entries
        .fold(count, |sum, entry| with_number(with_number(sum, (entry >> 32) as u32), entry as u32))
}

/// Returns the checksum of a tally's six counts.
pub fn sum_counts(tally: Tally) -> u32 {
    let Tally { lines, placed, clipped, zero_width, over_wide, dropped, halved: _ } = tally;
    sum_numbers([lines, placed, clipped, zero_width, over_wide, dropped])
}

/// Returns the checksum of composed lines: of first, end, width and alignment of each, then of their count.
pub fn sum_lines(lines: &[ComposedLine]) -> u32 {
    let fields = lines.iter().flat_map(|line| {
        [line.first(), line.end(), u32::from(line.width), line.alignment_number()]
    });
    with_number(sum_numbers(fields), lines.len() as u32)
}
