//! The crate's `WordWrapper`, over the oracle's stand-ins and over lean ones. Only the types
//! differ, not the source of the functions.

macro_rules! original {
    ($name:ident, $widgets:ident, $core:ident) => {
        pub mod $name {
            use std::hint::black_box;
            use $core::buffer::CellWidth;
            use $core::layout::Alignment;
            use $core::style::Style;
            use $core::text::StyledGrapheme;
            use $widgets::reflow::{LineComposer, WordWrapper};

            /// A prepared text: the graphemes of each text line.
            pub struct Text<'a> {
                symbols: &'a str,
                symbol_length: usize,
                lines: Vec<Vec<StyledGrapheme<'a>>>,
            }

            impl<'a> Text<'a> {
                /// Prepares the text of records, whose symbols are concatenated.
                pub fn new(records: &[u32], symbols: &'a str) -> Self {
                    let symbol_length = symbols.len() / records.len();
                    let mut lines: Vec<Vec<StyledGrapheme>> = Vec::new();
                    for (number, record) in records.iter().enumerate() {
                        if record >> 31 == 1 {
                            lines.push(Vec::new());
                        } else {
                            let symbol = &symbols[number * symbol_length..][..symbol_length];
                            let line = lines.last_mut().expect("records open with a head");
                            line.push(StyledGrapheme { symbol, style: Style::new() });
                        }
                    }
                    Self { symbols, symbol_length, lines }
                }

                fn composer<'t>(&'t self, limit: u16, trim: bool) -> impl LineComposer<'a> + 't {
                    let lines = self.lines.iter();
                    let given = lines.map(|line| (line.iter().cloned(), Alignment::Left));
                    WordWrapper::new(given, limit, trim)
                }

                /// Composes all lines without reading them; this is timed.
                #[inline(never)]
                pub fn compose(&self, limit: u16, trim: bool) {
                    let mut composer = self.composer(limit, trim);
                    while let Some(line) = composer.next_line() {
                        black_box((line.graphemes, line.width));
                    }
                }

                /// Composes all lines and counts their glyphs by width and end; this is timed for
                /// the tally. Returns lines, placed, clipped and zero-width.
                #[inline(never)]
                pub fn counts(&self, limit: u16, trim: bool) -> [u32; 4] {
                    let mut counts = [0; 4];
                    let mut composer = self.composer(limit, trim);
                    while let Some(line) = composer.next_line() {
                        counts[0] += 1;
                        let mut start = 0;
                        for grapheme in line.graphemes {
                            let width = grapheme.symbol.cell_width();
                            start += width;
                            let kind = if width == 0 { 3 } else { 1 + usize::from(start > limit) };
                            counts[kind] += 1;
                        }
                    }
                    counts
                }

                /// Returns the entries of the lines, for comparison.
                pub fn entries(&self, limit: u16, trim: bool) -> Vec<u64> {
                    let number = |grapheme: &StyledGrapheme| {
                        let start = self.symbols.as_ptr().addr();
                        ((grapheme.symbol.as_ptr().addr() - start) / self.symbol_length) as u64
                    };
                    let mut entries = Vec::new();
                    let mut composer = self.composer(limit, trim);
                    while let Some(line) = composer.next_line() {
                        let first = line.graphemes.first().map_or(0, number);
                        let end = line.graphemes.last().map_or(0, |last| number(last) + 1);
                        entries.push(first << 49 | end << 34 | u64::from(line.width) << 18);
                    }
                    entries
                }
            }
        }
    };
}

original!(over_oracle, ratatui_widgets, ratatui_core);
original!(over_lean, lean, lean);
