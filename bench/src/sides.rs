//! The prepared sides of a row, and their timing.

use std::time::{Duration, Instant};

/// The sides in the order of the columns: the proved archive, the plain translation, the crate over
/// the oracle's stand-ins, and for lists the crate's `WordWrapper` over lean ones.
pub const NAMES: [&str; 4] = ["proved", "plain", "crate", "lean"];

/// Total time of all sides of a row in a round.
const ROUND: Duration = Duration::from_millis(220);
/// Time of a side without the others.
const ROUND_ALONE: Duration = Duration::from_millis(60);

/// The work of each side: a call for every text of a size.
pub struct Sides<'a> {
    works: Vec<Box<dyn FnMut() + 'a>>,
}

impl<'a> Sides<'a> {
    pub fn new<const N: usize>(works: [Box<dyn FnMut() + 'a>; N]) -> Self {
        Self { works: works.into() }
    }

    /// Runs one side `times` times, for a tool that counts instructions.
    pub fn only(&mut self, name: &str, times: usize) {
        let side = NAMES.iter().position(|side| *side == name).expect("a side");
        for _ in 0..times {
            self.works[side]();
        }
    }

    /// Returns the nanoseconds per unit of each side, the minimum over a round. The sides take
    /// turns, so that a busy machine affects all.
    pub fn least(&mut self, units: usize) -> Vec<f64> {
        least(&mut self.works, ROUND, units)
    }

    /// Returns the nanoseconds per unit of the proved side, the minimum over a round without the
    /// others.
    pub fn least_alone(&mut self, units: usize) -> f64 {
        least(&mut self.works[..1], ROUND_ALONE, units)[0]
    }
}

fn least(works: &mut [Box<dyn FnMut() + '_>], round: Duration, units: usize) -> Vec<f64> {
    let mut least = vec![f64::MAX; works.len()];
    let end = Instant::now() + round;
    while Instant::now() < end {
        for (work, least) in works.iter_mut().zip(&mut least) {
            let start = Instant::now();
            work();
            *least = least.min(start.elapsed().as_secs_f64());
        }
    }
    least.iter().map(|seconds| seconds * 1e9 / units as f64).collect()
}
