//! The composed lines of a whole text, pulled one by one.

use crate::line_truncator::truncate_line;
use crate::text::{self, Alignment, head};
use crate::word_wrapper::{Rule, Run, WordWrapper};

/// A composed line: its first record, one past its last, its width and its alignment.
#[derive(Clone, Copy)]
pub struct WrappedLine {
    pub first: usize,
    pub end: usize,
    pub width: u32,
    pub alignment: Alignment,
}

/// Whether a text is wrapped, trimmed or not, or truncated and scrolled right by `column`.
#[derive(Clone, Copy)]
pub enum Wrap {
    Off { column: u16 },
    On { trim: bool },
}

/// How lines are composed: wrapped, or truncated and scrolled right by a number of columns.
#[derive(Clone, Copy)]
pub enum Method {
    WordWrap,
    Truncate(u32),
}

/// The remaining lines of a text; the current text line is from record `from` to `to`.
pub struct LineComposer<'a> {
    rule: Rule,
    method: Method,
    default_alignment: Alignment,
    text: &'a [u32],
    wrapper: WordWrapper,
    from: usize,
    to: usize,
    alignment: Alignment,
}

impl<'a> LineComposer<'a> {
    pub fn new(rule: Rule, method: Method, default_alignment: Alignment, text: &'a [u32]) -> Self {
        let alignment = Alignment::Left;
        let wrapper = WordWrapper::closed();
        Self { rule, method, default_alignment, text, wrapper, from: 0, to: 0, alignment }
    }

    /// Returns the first record of the current text line.
    pub fn from(&self) -> usize {
        self.from
    }

    /// Returns the next line of the current text line, if any.
    fn next_in_line(&mut self) -> Option<Run> {
        let records = &self.text[self.from..self.to];
        match self.method {
            Method::WordWrap => self.wrapper.next_line(self.rule, records),
            Method::Truncate(column) => self
                .wrapper
                .close()
                .then(|| truncate_line(self.rule, column, self.alignment, records)),
        }
    }

    /// Opens the text line whose head is at `at`.
    fn open(&mut self, at: usize) {
        self.from = at + 1;
        self.to = self.from + text::line_length(&self.text[self.from..]);
        self.wrapper = WordWrapper::new(self.rule);
        self.alignment = head::resolve(self.text[at], self.default_alignment);
    }

    /// Converts a run of the current text line to record numbers of the whole text.
    fn wrapped_line(&self, run: Run) -> WrappedLine {
        let from = if run.is_empty() { 0 } else { self.from };
        WrappedLine {
            first: from + run.first,
            end: from + run.end,
            width: run.width,
            alignment: self.alignment,
        }
    }
}

impl Iterator for LineComposer<'_> {
    type Item = WrappedLine;

    fn next(&mut self) -> Option<WrappedLine> {
        loop {
            if let Some(run) = self.next_in_line() {
                return Some(self.wrapped_line(run));
            }
            if self.to >= self.text.len() {
                return None;
            }
            self.open(self.to);
        }
    }
}
