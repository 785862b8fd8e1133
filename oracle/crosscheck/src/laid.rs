//! Compares the drawing of a text, in a frame or alone.

use std::fmt::Debug;

use oracle::{Drawn, Outcome, TextSettings};
use rules::compose::compose;
use rules::notice::start_column;
use rules::place::{Place, places};

use crate::report::Report;

/// The names under which drawings of one kind are compared and counted.
pub struct Names {
    pub counts: &'static str,
    pub cells: &'static str,
    pub blanked: &'static str,
    pub placing: &'static str,
    pub halving: &'static str,
    pub written: &'static str,
    pub panicking: &'static str,
}

/// A drawing by the crate `rules`, and what the Rust answers to compare with it.
pub struct Laid<'a> {
    pub input: &'a dyn Debug,
    pub text: &'a [u32],
    pub settings: TextSettings,
    /// The width of the text's area on the screen.
    pub columns: i64,
    pub drawn: Drawn,
    pub cells: Vec<u64>,
    /// The counts over the Rust's lines.
    pub counts: Outcome<Drawn>,
    /// Returns the cells that the Rust draws of a text.
    pub by_rust: &'a dyn Fn(&[u32]) -> Outcome<Vec<u64>>,
}

impl Laid<'_> {
    /// Compares the counts, and the cells unless a glyph is clipped: then the Rust writes it, or
    /// panics. A panic without a clipped glyph is a difference. If all clipped glyphs start inside,
    /// the cells are those that the Rust draws of a text in which they are blank.
    pub fn compare(self, report: &mut Report, names: &Names) {
        let Drawn { placed, clipped, halved, .. } = self.drawn;
        report.same(names.counts, self.input, &Outcome::Value(self.drawn), &self.counts);
        if placed > 0 {
            report.note(names.placing);
        }
        if halved > 0 {
            report.note(names.halving);
        }
        if halved > 0 && halved == clipped {
            let cells = Outcome::Value(self.cells.clone());
            report.same(names.blanked, self.input, &cells, &(self.by_rust)(&self.blanked()));
        }
        match (self.by_rust)(self.text) {
            Outcome::Value(_) if clipped > 0 => report.note(names.written),
            Outcome::Panicked(_) if clipped > 0 => report.note(names.panicking),
            rust => report.same(names.cells, self.input, &Outcome::Value(self.cells), &rust),
        }
    }

    /// Returns the text with the blank symbol in each glyph that starts inside and runs past the
    /// right edge. Its lines are the same: width and whitespace are fields beside the symbol.
    fn blanked(&self) -> Vec<u32> {
        let TextSettings { ambiguous, alignment, wrap, .. } = self.settings;
        let columns = self.columns;
        let mut text = self.text.to_vec();
        for line in compose(self.text, ambiguous, alignment, columns, wrap).lines {
            for (glyph, _, place) in places(&line.glyphs, start_column(&line, columns), columns) {
                if place == Place::Halved {
                    let record = &mut text[glyph.number as usize];
                    *record = (32 << 10) + *record % 1024;
                }
            }
        }
        text
    }
}
