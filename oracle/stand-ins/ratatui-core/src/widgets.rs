//! The widget trait.
//!
//! Document 01 has no rule for it: each widget draws itself. `None` draws nothing, as paragraph.rs
//! requires for its optional block.

use crate::buffer::Buffer;
use crate::layout::Rect;

pub trait Widget {
    /// Draws the widget on the cells of `area`.
    fn render(self, area: Rect, buf: &mut Buffer);
}

impl<W: Widget> Widget for Option<W> {
    fn render(self, area: Rect, buf: &mut Buffer) {
        if let Some(widget) = self {
            widget.render(area, buf);
        }
    }
}
