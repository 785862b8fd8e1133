//! Formats a difference.

use std::fmt::Write;

use crate::answer::{Answer, fields};
use crate::expected::expected;
use crate::input::{Call, Input};
use crate::knobs::{AREA, BLOCK, Knob, NUMBERS, SETTINGS, SYMBOLS};
use crate::ours;
use crate::records::{BLANK, is_head, style};

/// Maximum number of differing words printed.
const WORDS: usize = 6;

pub fn difference(call: Call, input: &Input) -> String {
    let mut shown = format!("{} differs\n{}", call.name(), self::input(call, input));
    let ours = ours::answer(call, input);
    line(&mut shown, "the archive", &answer(call, &ours));
    for (who, expected) in expected(call, input).answers {
        line(&mut shown, who, &answer(call, &expected));
        words(&mut shown, call, input, &ours, &expected, who);
    }
    shown
}

fn line(shown: &mut String, name: &str, value: &str) {
    writeln!(shown, "  {name}: {value}").expect("a string takes all");
}

/// Formats the input of a call.
fn input(call: Call, input: &Input) -> String {
    let mut shown = String::new();
    if call.has_screen() {
        let Input { columns, rows, cells, styles, .. } = input;
        line(&mut shown, "screen", &format!("{columns} × {rows}, {} cells", cells.len()));
        if let Some(place) = cells.iter().position(|cell| *cell != BLANK) {
            line(&mut shown, "not blank", &format!("cell {place}, {}", cell(cells[place])));
        }
        line(&mut shown, "styles", &format!("{styles:x?}"));
    }
    if call.reads_text() {
        line(&mut shown, "text", &records(&input.text));
    }
    if call.has_block() {
        line(&mut shown, "titles", &records(&input.titles));
        line(&mut shown, "block", &numbers(input, &[BLOCK, SYMBOLS]));
    }
    if call.has_settings() || call.has_paragraph_style() || call == Call::ListLines {
        line(&mut shown, "settings", &numbers(input, &[SETTINGS]));
    }
    if call.reads_widths() {
        line(&mut shown, "ambiguous", &input.settings.ambiguous.to_string());
    }
    if call.has_screen() || call == Call::Inner {
        line(&mut shown, "area", &numbers(input, &[AREA]));
    } else if call != Call::LineWidth {
        line(&mut shown, "numbers", &numbers(input, &[NUMBERS]));
    }
    if call == Call::ListLines {
        line(&mut shown, "list", &format!("{} entries", input.list.len()));
    }
    shown
}

/// Formats the nonzero numbers.
fn numbers(input: &Input, knobs: &[&[Knob]]) -> String {
    let knobs = knobs.iter().copied().flatten();
    let other = knobs.filter(|knob| (knob.get)(input) != 0);
    let named = other.map(|knob| {
        let name = knob.name.rsplit('.').next().unwrap_or(knob.name).trim();
        format!("{name} {}", (knob.get)(input))
    });
    let named: Vec<_> = named.collect();
    if named.is_empty() { "all 0".to_owned() } else { format!("{}, others 0", named.join(", ")) }
}

/// Formats heads as `|left` and glyphs as `a1`: the symbol, the width, `_` for whitespace, then the
/// style number.
fn records(records: &[u32]) -> String {
    if records.is_empty() {
        return "no records".to_owned();
    }
    let shown: Vec<_> = records.iter().map(|&record| one(record)).collect();
    shown.join(" ")
}

fn one(record: u32) -> String {
    if is_head(record) {
        let alignment = ["left", "centre", "right", "own"][(record >> 29 & 3) as usize];
        let position = ["", ".bottom", ".block's", ".3"][(record >> 27 & 3) as usize];
        let zeros = match record % (1 << 27) {
            0 => String::new(),
            zeros => format!(".zeros {zeros:x}"),
        };
        return format!("|{alignment}{position}{zeros}");
    }
    let symbol = match char::from_u32(record >> 10) {
        Some(letter) if letter.is_ascii_graphic() => letter.to_string(),
        _ => format!("#{}:", record >> 10),
    };
    let whitespace = if record >> 6 & 1 == 1 { "_" } else { "" };
    let style = match style(record) {
        0 => String::new(),
        style => format!("/{style}"),
    };
    format!("{symbol}{}{whitespace}{style}", record >> 7 & 7)
}

fn answer(call: Call, answer: &Answer) -> String {
    let named = fields(call).iter().zip(answer.values);
    let values: String = named.map(|(name, value)| format!(", {name} {value}")).collect();
    format!("number {}{values}", answer.number)
}

/// Formats the first differing words.
fn words(
    shown: &mut String,
    call: Call,
    input: &Input,
    ours: &Answer,
    expected: &Answer,
    who: &str,
) {
    let pairs = ours.words.iter().zip(&expected.words).enumerate();
    for (place, (ours, expected)) in pairs.filter(|(_, (one, other))| one != other).take(WORDS) {
        let (name, form): (_, fn(u64) -> String) = if call == Call::ListLines {
            (format!("entry {place}"), entry)
        } else {
            let columns = input.columns.max(1) as usize;
            (format!("cell of column {}, row {}", place % columns, place / columns), cell)
        };
        line(shown, &name, &format!("{}; {who}: {}", form(*ours), form(*expected)));
    }
}

fn entry(word: u64) -> String {
    let [first, end] = [word >> 49, word >> 34 & 0x7fff];
    let [width, alignment] = [word >> 18 & 0xffff, word >> 16 & 3];
    let [mark, rest] = [word >> 15 & 1, word & 0x7fff];
    format!("first {first} end {end} width {width} alignment {alignment} mark {mark} rest {rest}")
}

fn cell(word: u64) -> String {
    let [symbol, foreground, background] = [word >> 43, word >> 35 & 255, word >> 27 & 255];
    let [modifiers, rest] = [word >> 18 & 511, word & 0x3_ffff];
    format!("symbol {symbol} colours {foreground} {background} modifiers {modifiers} rest {rest}")
}
