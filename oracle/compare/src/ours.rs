//! The answers of the proved archive.

use crate::answer::Answer;
use crate::input::{Call, Input};
use crate::raw;

pub fn answer(call: Call, input: &Input) -> Answer {
    let Input { text, titles, styles, area, block, settings, limit, trim, .. } = input;
    match call {
        Call::ListLines => list_lines(input),
        Call::Tally => {
            let raw::TallyAnswer { number, lines, placed, clipped, zero_width, over_wide, dropped } =
                raw::tally(text, settings.ambiguous, *limit, *trim);
            let values = [lines, placed, clipped, zero_width, over_wide, dropped].map(u64::from);
            Answer { number, ..Answer::of(values) }
        }
        Call::Inner => {
            let answered = raw::inner(*block, titles, *area);
            Answer { number: answered.number, ..Answer::of(numbers(&answered)) }
        }
        Call::DrawBlock => {
            let mut cells = input.cells.clone();
            let (size, ambiguous) = ([input.columns, input.rows], settings.ambiguous);
            let number =
                raw::draw_block(size, &mut cells, styles, titles, ambiguous, *area, *block);
            Answer { number, ..Answer::drawn([], cells) }
        }
        Call::DrawFrame => frame(input),
        Call::DrawText => self::text(input),
        Call::Pair => pair(input),
        Call::Pages => pages(input),
        Call::LineCount => measured(raw::line_count(text, titles, *block, *settings, *limit)),
        Call::LineWidth => measured(raw::line_width(text, settings.ambiguous, titles, *block)),
    }
}

fn list_lines(input: &Input) -> Answer {
    let mut list = input.list.clone();
    let raw::Text { ambiguous, alignment, .. } = input.settings;
    let raw::ListAnswer { lines, number } =
        raw::list_lines(&input.text, ambiguous, alignment, input.limit, input.trim, &mut list);
    Answer { number, ..Answer::drawn([lines as u64], list) }
}

/// Returns the four numbers of an answered area.
fn numbers(answered: &raw::AreaAnswer) -> [u64; 4] {
    [answered.x, answered.y, answered.width, answered.height].map(u64::from)
}

fn frame(input: &Input) -> Answer {
    let mut cells = input.cells.clone();
    let answered = draw_frame(input, &mut cells);
    Answer { number: answered.number, ..Answer::drawn(numbers(&answered), cells) }
}

fn text(input: &Input) -> Answer {
    let mut cells = input.cells.clone();
    let raw::DrawAnswer { number, rows, placed, clipped } =
        draw_text(input, &mut cells, input.area);
    Answer { number, ..Answer::drawn([rows, placed, clipped].map(u64::from), cells) }
}

fn draw_frame(input: &Input, cells: &mut [u64]) -> raw::AreaAnswer {
    let Input { styles, titles, area, block, settings, .. } = input;
    let size = [input.columns, input.rows];
    let raw::Text { ambiguous, style, .. } = *settings;
    raw::draw_frame(size, cells, styles, titles, ambiguous, *area, style, *block)
}

fn draw_text(input: &Input, cells: &mut [u64], area: raw::Area) -> raw::DrawAnswer {
    let size = [input.columns, input.rows];
    raw::draw_text(size, cells, &input.styles, &input.text, area, input.settings)
}

/// Frame, then text into the area that the frame answered, refused or not.
fn pair(input: &Input) -> Answer {
    let mut cells = input.cells.clone();
    let frame = draw_frame(input, &mut cells);
    let raw::AreaAnswer { number, x, y, width, height } = frame;
    let text = draw_text(input, &mut cells, raw::Area { x, y, width, height });
    let [x, y, width, height] = numbers(&frame);
    let [rows, placed, clipped] = [text.rows, text.placed, text.clipped].map(u64::from);
    let values = [text.number.into(), x, y, width, height, rows, placed, clipped];
    Answer { number, ..Answer::drawn(values, cells) }
}

fn pages(input: &Input) -> Answer {
    let raw::PagesAnswer { number, x, y, width, height, lines, pages } = raw::pages(
        [input.columns, input.rows],
        &input.cells,
        &input.styles,
        &input.text,
        &input.titles,
        input.area,
        input.block,
        input.settings,
    );
    let [x, y, width, height] = [x, y, width, height].map(u64::from);
    Answer { number, ..Answer::of([x, y, width, height, lines.into(), pages.into()]) }
}

fn measured(answer: raw::MeasureAnswer) -> Answer {
    Answer { number: answer.number, ..Answer::of([u64::from(answer.value)]) }
}
