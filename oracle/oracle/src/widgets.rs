//! Converts settings and records to the widgets of the Rust files.

use std::collections::BTreeMap;
use std::sync::Mutex;

use ratatui_core::glyph::Glyph;
use ratatui_core::layout::Offset;
use ratatui_core::symbols::border;
use ratatui_core::text::Text;
use ratatui_widgets::block;
use ratatui_widgets::borders;
use ratatui_widgets::paragraph::{self, Paragraph};

use crate::records::{Records, Styles, style};
use crate::settings::{
    Block, BorderSet, Borders, Effect, Shadow, TextSettings, TitlePosition, Wrap,
};

/// Returns the crate's block, with titles.
pub fn block<'a>(settings: Block, titles: &'a Records, styles: Styles<'_>) -> block::Block<'a> {
    let mut block = block::Block::new()
        .borders(borders(settings.borders))
        .border_set(border_set(settings.border_set))
        .border_style(style(styles, settings.border_style))
        .style(style(styles, settings.style))
        .padding(settings.padding)
        .title_style(style(styles, settings.titles_style))
        .title_alignment(settings.titles_alignment)
        .title_position(settings.titles_position);
    for title in titles.lines(styles) {
        block = match title.position {
            Some(TitlePosition::Top) => block.title_top(title.line),
            Some(TitlePosition::Bottom) => block.title_bottom(title.line),
            None => block.title(title.line),
        };
    }
    match shadow(settings.shadow, styles) {
        Some(shadow) => block.shadow(shadow),
        None => block,
    }
}

/// Returns the crate's paragraph, without a block.
pub fn paragraph<'a>(
    settings: TextSettings,
    text: &'a Records,
    styles: Styles<'_>,
) -> Paragraph<'a> {
    let paragraph = Paragraph::new(Text {
        lines: text.lines(styles).into_iter().map(|headed| headed.line).collect(),
        style: style(styles, settings.text_style),
        alignment: None,
    })
    .style(style(styles, settings.style))
    .alignment(settings.alignment);
    match settings.wrap {
        Wrap::Off { column } => paragraph.scroll((settings.scroll, column)),
        Wrap::On { trim } => paragraph.scroll((settings.scroll, 0)).wrap(paragraph::Wrap { trim }),
    }
}

fn borders(settings: Borders) -> borders::Borders {
    let sides = [
        (settings.top, borders::Borders::TOP),
        (settings.right, borders::Borders::RIGHT),
        (settings.bottom, borders::Borders::BOTTOM),
        (settings.left, borders::Borders::LEFT),
    ];
    let shown = sides.into_iter().filter(|(shown, _)| *shown);
    shown.fold(borders::Borders::NONE, |all, (_, side)| all | side)
}

fn border_set(settings: BorderSet) -> border::Set<'static> {
    border::Set {
        top_left: symbol(settings.top_left),
        top_right: symbol(settings.top_right),
        bottom_left: symbol(settings.bottom_left),
        bottom_right: symbol(settings.bottom_right),
        vertical_left: symbol(settings.vertical_left),
        vertical_right: symbol(settings.vertical_right),
        horizontal_top: symbol(settings.horizontal_top),
        horizontal_bottom: symbol(settings.horizontal_bottom),
    }
}

fn shadow(settings: Shadow, styles: Styles<'_>) -> Option<block::Shadow> {
    match settings {
        Shadow::Absent => None,
        Shadow::Present { effect, style: number, x, y } => {
            let shadow = match effect {
                Effect::Overlay => block::Shadow::overlay(),
                Effect::Symbol(number) => block::Shadow::symbol(symbol(number)),
            };
            Some(shadow.style(style(styles, number)).offset(Offset::new(x, y)))
        }
    }
}

/// Returns the symbol string of a border or shadow. block/shadow.rs requires `'static`, so each is
/// created once and leaked.
fn symbol(number: u32) -> &'static str {
    static KEPT: Mutex<BTreeMap<u32, &str>> = Mutex::new(BTreeMap::new());
    let glyph = Glyph::from_symbol(number);
    let mut kept = KEPT.lock().expect("no panic while held");
    kept.entry(number).or_insert_with(|| glyph.encode().leak())
}
