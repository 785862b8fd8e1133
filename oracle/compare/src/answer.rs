//! Everything that a call returns and writes.

use crate::input::Call;

#[derive(Clone, PartialEq, Eq)]
pub struct Answer {
    /// 0, or the number of the refusal cause; the frame's if there are two calls.
    pub number: u32,
    /// The other fields of the answer, in the order of [`fields`].
    pub values: [u64; 8],
    /// The cells or the list after the call.
    pub words: Vec<u64>,
}

impl Answer {
    /// An accepted call that writes nothing.
    pub fn of<const N: usize>(values: [u64; N]) -> Self {
        Self::drawn(values, Vec::new())
    }

    pub fn drawn<const N: usize>(values: [u64; N], words: Vec<u64>) -> Self {
        let mut all = [0; 8];
        all[..N].copy_from_slice(&values);
        Self { number: 0, values: all, words }
    }

    /// Returns the field with a name, or 0 if the call has no such field.
    pub fn named(&self, call: Call, name: &str) -> u64 {
        let place = fields(call).iter().position(|field| *field == name);
        place.map_or(0, |place| self.values[place])
    }

    pub fn refused(number: u32, words: Vec<u64>) -> Self {
        Self { number, values: [0; 8], words }
    }
}

/// Returns the names of a call's fields, without its number.
pub fn fields(call: Call) -> &'static [&'static str] {
    match call {
        Call::ListLines => &["lines"],
        Call::Tally => &["lines", "placed", "clipped", "zero_width", "over_wide", "dropped"],
        Call::Inner => &["x", "y", "width", "height"],
        Call::DrawBlock => &[],
        Call::DrawFrame => &["x", "y", "width", "height"],
        Call::DrawText => &["rows", "placed", "clipped"],
        Call::Pair => &["text's number", "x", "y", "width", "height", "rows", "placed", "clipped"],
        Call::Pages => &["x", "y", "width", "height", "lines", "pages"],
        Call::LineCount | Call::LineWidth => &["value"],
    }
}
