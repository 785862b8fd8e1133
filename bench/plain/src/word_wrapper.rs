//! The wrapped lines of one text line; pending glyphs are runs of records.

use crate::text::{AmbiguousWidth, glyph};

/// Settings of the wrapper.
#[derive(Clone, Copy)]
pub struct Rule {
    pub limit: u32,
    pub trim: bool,
    pub ambiguous: AmbiguousWidth,
}

impl Rule {
    /// Returns the width of a glyph as the rule reads it.
    pub fn width(self, glyph: u32) -> u32 {
        glyph::width(glyph, self.ambiguous)
    }

    /// Returns the width of a glyph as the rule reads it, or nothing if it is over-wide. Most codes
    /// are widths within the limit.
    pub fn fitting(self, glyph: u32) -> Option<u32> {
        let code = glyph::width_code(glyph);
        if code <= self.limit.min(glyph::WIDEST) {
            return Some(code);
        }
        Some(self.width(glyph)).filter(|&width| width <= self.limit)
    }
}

/// Consecutive glyphs of a text line, without over-wide ones: the first record, one past the last,
/// and the sum of the widths. An empty run ends at 0.
#[derive(Clone, Copy, Default)]
pub struct Run {
    pub first: usize,
    pub end: usize,
    pub width: u32,
}

impl Run {
    pub fn is_empty(&self) -> bool {
        self.end == 0
    }

    /// Returns this run followed by the other.
    fn append(self, other: Self) -> Self {
        if self.is_empty() {
            return other;
        }
        if other.is_empty() {
            return self;
        }
        Self { first: self.first, end: other.end, width: self.width + other.width }
    }

    /// Appends the record at `at`, of width `width`.
    pub fn push(&mut self, at: usize, width: u32) {
        if self.is_empty() {
            self.first = at;
        }
        self.end = at + 1;
        self.width += width;
    }

    /// Returns the run without the glyphs dropped from its front while each fits in `room` less
    /// those dropped.
    #[expect(
        clippy::needless_range_loop,
        reason = "in the proved code it is so, and a zip is slower on words"
    )]
    fn after_fitting(self, records: &[u32], rule: Rule, room: u32) -> Self {
        let mut left = room;
        for first in self.first..self.end {
            let glyph_width = rule.width(records[first]);
            if glyph_width > rule.limit {
                continue;
            }
            if glyph_width > left {
                return Self { first, width: self.width - (room - left), ..self };
            }
            left -= glyph_width;
        }
        Self::default()
    }
}

/// State of the word wrapper within one text line.
pub struct WordWrapper {
    row: Run,
    spaces: Run,
    word: Run,
    solid: bool,
    emitted: bool,
    live: bool,
    at: usize,
}

impl WordWrapper {
    /// Returns the state before a text line's first glyph. Limit 0 gives no line.
    pub fn new(rule: Rule) -> Self {
        Self { live: rule.limit != 0, ..Self::closed() }
    }

    /// Returns the state without remaining lines.
    pub fn closed() -> Self {
        let none = Run::default();
        Self {
            row: none,
            spaces: none,
            word: none,
            solid: false,
            emitted: false,
            live: false,
            at: 0,
        }
    }

    /// Closes the state and returns whether a line may have remained.
    pub fn close(&mut self) -> bool {
        std::mem::take(&mut self.live)
    }

    /// Returns row, then spaces if row isn't empty or trim is off, then word.
    fn gather(&self, trim: bool) -> Run {
        if self.row.is_empty() && trim {
            return self.word;
        }
        self.row.append(self.spaces).append(self.word)
    }

    /// The test of step 2.
    fn must_join(&self, rule: Rule, width: u32, space: bool) -> bool {
        if space && self.solid {
            return true;
        }
        if !self.row.is_empty() {
            return false;
        }
        if rule.trim {
            self.word.width + width > rule.limit || self.spaces.width + width > rule.limit
        } else {
            self.word.width + self.spaces.width + width > rule.limit
        }
    }

    /// Step 2.
    fn join(&mut self, trim: bool) {
        self.row = self.gather(trim);
        self.spaces = Run::default();
        self.word = Run::default();
    }

    /// The test of step 3.
    fn is_full(&self, rule: Rule, width: u32) -> bool {
        self.row.width >= rule.limit
            || width > 0 && self.row.width + self.spaces.width + self.word.width >= rule.limit
    }

    /// Step 3: emits the row and drops spaces while they fit in its remaining width.
    fn emit(&mut self, rule: Rule, records: &[u32]) -> Run {
        let line = std::mem::take(&mut self.row);
        let room = rule.limit.saturating_sub(line.width);
        self.spaces = self.spaces.after_fitting(records, rule, room);
        self.emitted = true;
        line
    }

    /// Step 4.
    fn append(&mut self, width: u32, space: bool) {
        let run = if space { &mut self.spaces } else { &mut self.word };
        run.push(self.at, width);
        self.solid = !space;
    }

    /// Processes one glyph and returns the line that it emits, if any.
    fn step(&mut self, rule: Rule, records: &[u32], record: u32) -> Option<Run> {
        let space = glyph::is_whitespace(record);
        let Some(width) = rule.fitting(record) else {
            self.at += 1;
            return None;
        };
        if self.must_join(rule, width, space) {
            self.join(rule.trim);
        }
        let line = self.is_full(rule, width).then(|| self.emit(rule, records));
        let dropped = line.is_some() && space && self.spaces.is_empty();
        if !dropped {
            self.append(width, space);
        }
        self.at += 1;
        line
    }

    /// Processes the end of the text line and returns its last line, if any.
    fn finish(&mut self, rule: Rule) -> Option<Run> {
        self.live = false;
        let last = self.gather(rule.trim);
        let none = last.is_empty() && self.spaces.is_empty() && self.emitted;
        (!none).then_some(last)
    }

    /// Returns the next line of the text line with the given records, if any.
    pub fn next_line(&mut self, rule: Rule, records: &[u32]) -> Option<Run> {
        if !self.live {
            return None;
        }
        while let Some(&record) = records.get(self.at) {
            let line = self.step(rule, records, record);
            if line.is_some() {
                return line;
            }
        }
        self.finish(rule)
    }
}
