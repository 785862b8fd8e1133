//! The table of 'Why a call is refused': "lowest number first, of those a call has inputs for".

use crate::input::{Call, Input};
use crate::records::{SYMBOLS, is_head, style};

/// The header's number for an invalid setting; "this is looked for before all others".
pub const UNNAMED: u32 = 255;

/// The cause for a short list, checked once the lines are known.
pub const SHORT_LIST: u32 = 9;

/// Returns the number of the refusal cause, except for a short list, or 0. The two calls of a pair
/// each have their own.
pub fn number(call: Call, input: &Input) -> u32 {
    if unnamed(call, input) {
        return UNNAMED;
    }
    let mut causes = causes(call).iter().copied();
    causes.find(|&cause| holds(cause, call, input)).unwrap_or(0)
}

/// Returns the causes that a call has inputs for, lowest first.
fn causes(call: Call) -> &'static [u32] {
    match call {
        Call::ListLines | Call::Tally => &[3, 4, 8],
        Call::Inner => &[5, 7],
        // C-15: "The frame call checks 1, 2, 5, 6, 7 over its own inputs; the text call checks 1,
        // 2, 3, 4, 6. A call that draws through both [...] checks all its inputs first, in the old
        // order."
        Call::DrawBlock | Call::DrawFrame => &[1, 2, 5, 6, 7],
        Call::DrawText => &[1, 2, 3, 4, 6],
        Call::Pages => &[1, 2, 3, 4, 5, 6, 7],
        Call::LineCount => &[3, 4, 5, 7, 8],
        Call::LineWidth => &[3, 4, 5, 7],
        Call::Pair => unreachable!("each of the two calls is asked"),
    }
}

fn unnamed(call: Call, input: &Input) -> bool {
    let Input { block, settings, trim, .. } = input;
    let borders = [block.border_top, block.border_right, block.border_bottom, block.border_left];
    let wrong_block = borders.into_iter().any(|border| border > 1)
        || block.titles_alignment > 2
        || block.titles_position > 1
        || block.shadow > 2;
    let wrong_settings = settings.alignment > 2 || settings.wrap > 2;
    let wrong_reading = call.reads_widths() && ![1, 2].contains(&settings.ambiguous);
    let wrong_other = match call {
        Call::ListLines => settings.alignment > 2 || *trim > 1,
        Call::Tally => *trim > 1,
        _ => call.has_block() && wrong_block || call.has_settings() && wrong_settings,
    };
    wrong_reading || wrong_other
}

fn holds(cause: u32, call: Call, input: &Input) -> bool {
    match cause {
        1 => wrong_screen(input),
        2 => input.styles.len() > 64 || input.styles.iter().any(|style| style % (1 << 28) != 0),
        3 => input.text.len() > 16_384,
        4 => wrong_text(&input.text),
        5 => wrong_titles(&input.titles),
        6 => wrong_style_number(call, input),
        7 => wrong_symbol(input),
        _ => input.limit > 4_096,
    }
}

/// "columns not 1 to 512, rows not 1 to 256, or cells not columns × rows"
fn wrong_screen(input: &Input) -> bool {
    let count = u64::from(input.columns) * u64::from(input.rows);
    !(1..=512).contains(&input.columns)
        || !(1..=256).contains(&input.rows)
        || input.cells.len() as u64 != count
}

/// "text not empty and not opening with a head, or a head's zeros or position not 0"
fn wrong_text(text: &[u32]) -> bool {
    let wrong_head = |record: &u32| is_head(*record) && *record << 3 != 0;
    text.first().is_some_and(|first| !is_head(*first)) || text.iter().any(wrong_head)
}

/// "titles: over 16, over 256 glyphs in one, records not empty and not opening with a head,
/// position 3, zeros not 0"
fn wrong_titles(titles: &[u32]) -> bool {
    let (mut heads, mut glyphs) = (0, 0);
    for &record in titles {
        if !is_head(record) {
            glyphs += 1;
        } else if record >> 27 & 3 == 3 || record % (1 << 27) != 0 {
            return true;
        } else {
            heads += 1;
            glyphs = 0;
        }
        if heads == 0 || heads > 16 || glyphs > 256 {
            return true;
        }
    }
    false
}

/// "a style number, glyphs' included, not below their count"; the shadow's if there is one.
fn wrong_style_number(call: Call, input: &Input) -> bool {
    let Input { block, settings, .. } = input;
    let (mut numbers, mut texts) = (Vec::new(), Vec::new());
    if call.has_block() {
        numbers.extend([block.border_style, block.style, block.titles_style]);
        texts.push(&input.titles);
    }
    if call.has_block() && block.shadow > 0 {
        numbers.push(block.shadow_style);
    }
    if call.has_paragraph_style() {
        numbers.push(settings.style);
    }
    if call.reads_text() {
        numbers.push(settings.text_style);
        texts.push(&input.text);
    }
    let wrong = |number: u32| number as usize >= input.styles.len();
    let glyphs = texts.into_iter().flatten().copied().filter(|record| !is_head(*record));
    numbers.into_iter().map(u32::from).any(wrong) || glyphs.map(style).any(wrong)
}

/// "a border or shadow symbol of 2,097,152 or more"; the shadow's if it has one.
fn wrong_symbol(input: &Input) -> bool {
    let block = &input.block;
    let border = crate::knobs::SYMBOLS.iter().any(|symbol| (symbol.get)(input) >= SYMBOLS.into());
    border || block.shadow == 2 && block.shadow_symbol >= SYMBOLS
}
