//! Stand-in for `itertools`: `collect_vec`, with which block.rs collects the centred titles.
//!
//! Document 01: "Each position draws left, centre, right titles by the rules of ..
//! `render_center_titles` ..". The order of the titles is kept.

/// Adds `collect_vec` to every iterator.
pub trait Itertools: Iterator {
    /// Collects the items into a `Vec`, in order.
    fn collect_vec(self) -> Vec<Self::Item>
    where
        Self: Sized,
    {
        self.collect()
    }
}

impl<I: Iterator> Itertools for I {}
