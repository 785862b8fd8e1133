//! The two calls, and the combined drawing, by the Rust and by the crate `rules`.

use std::fmt;

use oracle::AmbiguousWidth::Narrow;
use oracle::{Block, Drawn, Notice, Outcome, Rect, TextSettings};

use crate::screen::Screen;

/// Who draws.
#[derive(Clone, Copy)]
pub enum By {
    Rust,
    Rules,
}

pub const BOTH: [By; 2] = [By::Rust, By::Rules];

impl fmt::Display for By {
    fn fmt(&self, f: &mut fmt::Formatter<'_>) -> fmt::Result {
        f.write_str(match self {
            Self::Rust => "the Rust",
            Self::Rules => "by the rules",
        })
    }
}

impl By {
    /// Draws a frame and returns its inner area.
    pub fn draw_frame(
        self,
        screen: &mut Screen,
        titles: &[u32],
        area: Rect,
        style: u8,
        block: Block,
    ) -> Outcome<Rect> {
        let Screen { columns, rows, ref mut cells, ref styles } = *screen;
        match self {
            Self::Rust => {
                oracle::draw_frame(columns, rows, cells, styles, titles, Narrow, area, style, block)
            }
            Self::Rules => {
                let area = area.into();
                let inner = screen.by_rules(|screen| {
                    rules::apart::draw_frame(screen, titles, Narrow, area, style, &block)
                });
                let [x, y, width, height] = inner.numbers().map(|number| number as u16);
                Outcome::Value(Rect::new(x, y, width, height))
            }
        }
    }

    /// Draws a text and returns its counts.
    pub fn draw_text(
        self,
        screen: &mut Screen,
        text: &[u32],
        area: Rect,
        settings: TextSettings,
    ) -> Outcome<Drawn> {
        let Screen { columns, rows, ref mut cells, ref styles } = *screen;
        match self {
            Self::Rust => oracle::draw_text(columns, rows, cells, styles, text, area, settings),
            Self::Rules => {
                let area = area.into();
                let draw = |screen: &mut _| rules::apart::draw_text(screen, text, area, &settings);
                Outcome::Value(screen.by_rules(draw))
            }
        }
    }

    /// Draws a frame, then a text into the area that it answered, and returns both answers.
    pub fn draw_pair(
        self,
        screen: &mut Screen,
        text: &[u32],
        titles: &[u32],
        area: Rect,
        notice: Notice,
    ) -> Outcome<(Rect, Drawn)> {
        self.draw_frame(screen, titles, area, notice.style, notice.block).and_then(|inner| {
            self.draw_text(screen, text, inner, notice.text()).map(|drawn| (inner, drawn))
        })
    }

    /// Draws a whole notice at once and returns its counts.
    pub fn draw_combined(
        self,
        screen: &mut Screen,
        text: &[u32],
        titles: &[u32],
        area: Rect,
        notice: Notice,
    ) -> Outcome<Drawn> {
        let Screen { columns, rows, ref mut cells, ref styles } = *screen;
        match self {
            Self::Rust => {
                oracle::draw_notice(columns, rows, cells, styles, text, titles, area, notice)
            }
            Self::Rules => {
                let area = area.into();
                let draw =
                    |screen: &mut _| rules::notice::draw(screen, text, titles, area, &notice);
                Outcome::Value(screen.by_rules(draw))
            }
        }
    }
}
