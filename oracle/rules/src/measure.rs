//! `line_count` and `line_width` of 'After the pages'.

use oracle::{Alignment, AmbiguousWidth, Block, TitlePosition, Wrap};

use crate::compose::compose;
use crate::frame::has_title;
use crate::{held, lines, width};

/// "0 at width 0, else composed lines (or text lines, unwrapped) plus both numbers of
/// `vertical_space`; its width isn't reduced by the frame."
pub fn line_count(
    text: &[u32],
    ambiguous: AmbiguousWidth,
    titles: &[u32],
    block: &Block,
    wrap: Wrap,
    limit: u16,
) -> u32 {
    if limit == 0 {
        return 0;
    }
    let count = match wrap {
        Wrap::Off { .. } => lines(text, ambiguous).len(),
        Wrap::On { .. } => {
            compose(text, ambiguous, Alignment::Left, i64::from(limit), wrap).lines.len()
        }
    };
    let titles = lines(titles, ambiguous);
    let top = block.borders.top || has_title(block, &titles, TitlePosition::Top);
    let bottom = block.borders.bottom || has_title(block, &titles, TitlePosition::Bottom);
    count as u32 + space(block.padding.top, top) + space(block.padding.bottom, bottom)
}

/// "The widest line, over-wide glyphs included, plus both of `horizontal_space`."
pub fn line_width(text: &[u32], ambiguous: AmbiguousWidth, block: &Block) -> u32 {
    let widest = lines(text, ambiguous).iter().map(|line| width(&line.glyphs)).max();
    let left = space(block.padding.left, block.borders.left);
    widest.unwrap_or(0) as u32 + left + space(block.padding.right, block.borders.right)
}

/// Returns the space that a frame takes on one side: its padding, and 1 for a border or title.
fn space(padding: u16, taken: bool) -> u32 {
    held(i64::from(padding) + i64::from(taken)) as u32
}
