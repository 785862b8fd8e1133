//! Table rows for the drawing calls.

use std::hint::black_box;

use oracle::{Notice, Rect};
use ratatui_core::buffer::Buffer;
use ratatui_core::style::Style;
use ratatui_core::widgets::Widget;
use ratatui_widgets::block::Block;
use ratatui_widgets::paragraph::Paragraph;

use crate::records::{self, Records};
use crate::rows::{Method, Page};
use crate::scene::{PARAGRAPH_STYLE, STYLES, Scene};
use crate::sides::Sides;
use crate::{flat, inputs, raw, translated, widgets};

/// Panics at the first cell in which two screens differ.
fn compare(cells: &[u64], expected: &[u64]) {
    assert_eq!(cells.len(), expected.len());
    let differs = cells.iter().zip(expected).position(|(cell, expected)| cell != expected);
    assert_eq!(differs, None, "a cell differs");
}

/// The same with the crate's screen.
fn compare_buffer(buffer: &Buffer, expected: &[u64]) {
    compare(&buffer.packed().collect::<Vec<_>>(), expected);
}

/// A page of a text, with the settings for every side.
struct Shown<'a> {
    text: &'a [u32],
    settings: raw::Text,
    original: Notice,
    translated: plain::TextSettings,
}

impl<'a> Shown<'a> {
    fn new(scene: &Scene, text: &'a [u32], method: Method, page: Page) -> Self {
        let settings = scene.settings(text, method, page);
        let original = scene.notice(settings);
        Self { text, settings, original, translated: translated::text(original.text()) }
    }

    /// Returns the crate's widget, with its block if the text has a frame.
    fn paragraph<'r>(
        &self,
        scene: &Scene,
        text: &'r Records,
        titles: &'r Records,
    ) -> Paragraph<'r> {
        let paragraph = widgets::paragraph(self.original.text(), text, Some(&STYLES));
        if scene.has_frame { paragraph.block(scene.widget(titles)) } else { paragraph }
    }

    /// Compares the counts and all cells of every side.
    fn compare(&self, scene: &Scene, paragraph: &Paragraph) {
        let (mut proved, mut plain, mut buffer) = (scene.cells(), scene.cells(), scene.buffer());
        let (cells, counts) = scene.oracle_text(self.text, self.original);
        assert_eq!(scene.proved_text(&mut proved, self.text, self.settings), counts);
        assert_eq!(scene.plain_text(&mut plain, self.text, self.translated), counts);
        paragraph.render(scene.area(), &mut buffer);
        compare_buffer(&buffer, &cells);
        let [_, _, clipped] = counts;
        let ours = match clipped {
            0 => cells,
            _ => scene.clipped_text(self.text, self.original),
        };
        compare(&proved, &ours);
        compare(&plain, &ours);
    }
}

/// Texts, each drawn after its frame if the scene has one. The crate draws both at once.
pub fn texts<T>(
    scene: &Scene,
    texts: &[Vec<u32>],
    method: Method,
    page: Page,
    work: impl FnOnce(&mut Sides) -> T,
) -> T {
    let texts: Vec<Vec<u32>> = texts.iter().map(|text| inputs::styled(text)).collect();
    let pages: Vec<Shown> =
        texts.iter().map(|text| Shown::new(scene, text, method, page)).collect();
    let records: Vec<Records> =
        texts.iter().map(|text| Records::new(text, scene.ambiguous)).collect();
    let titles = Records::new(&scene.titles, scene.ambiguous);
    let widget = |(page, text): (&Shown, _)| page.paragraph(scene, text, &titles);
    let paragraphs: Vec<Paragraph> = pages.iter().zip(&records).map(widget).collect();
    for (page, paragraph) in pages.iter().zip(&paragraphs) {
        page.compare(scene, paragraph);
    }
    work(&mut text_sides(scene, &pages, &paragraphs))
}

fn text_sides<'a>(scene: &'a Scene, pages: &'a [Shown], paragraphs: &'a [Paragraph]) -> Sides<'a> {
    let area = scene.area();
    let (mut proved, mut plain, mut buffer) = (scene.cells(), scene.cells(), scene.buffer());
    Sides::new([
        Box::new(move || {
            for Shown { text, settings, .. } in pages {
                black_box(scene.proved_text(&mut proved, black_box(text), *settings));
            }
        }),
        Box::new(move || {
            for Shown { text, translated, .. } in pages {
                black_box(scene.plain_text(&mut plain, black_box(text), *translated));
            }
        }),
        Box::new(move || {
            for paragraph in paragraphs {
                black_box(paragraph).render(area, black_box(&mut buffer));
            }
        }),
    ])
}

/// What the crate draws a frame with.
struct OriginalFrame<'a> {
    area: Rect,
    style: Style,
    block: Block<'a>,
}

impl<'a> OriginalFrame<'a> {
    fn new(scene: &Scene, titles: &'a Records) -> Self {
        let style = records::style(Some(&STYLES), PARAGRAPH_STYLE);
        Self { area: scene.area(), style, block: scene.widget(titles) }
    }

    /// The first half of the crate's `Paragraph::render`: draws the paragraph style and the block,
    /// and returns the inner area.
    fn render(&self, buffer: &mut Buffer) -> Rect {
        buffer.set_style(self.area, self.style);
        (&self.block).render(self.area, buffer);
        self.block.inner(self.area)
    }

    /// Compares the inner area and all cells of every side.
    fn compare(&self, scene: &Scene) {
        let (mut proved, mut plain, mut buffer) = (scene.cells(), scene.cells(), scene.buffer());
        let (cells, inner) = scene.oracle_frame();
        assert_eq!(flat::rect(scene.proved_frame(&mut proved)), inner);
        assert_eq!(scene.plain_frame(&mut plain), translated::rect(inner));
        assert_eq!(self.render(&mut buffer), inner);
        compare(&proved, &cells);
        compare(&plain, &cells);
        compare_buffer(&buffer, &cells);
    }
}

pub fn frame<T>(scene: &Scene, work: impl FnOnce(&mut Sides) -> T) -> T {
    let titles = Records::new(&scene.titles, scene.ambiguous);
    let original = OriginalFrame::new(scene, &titles);
    original.compare(scene);

    let (mut proved, mut plain, mut buffer) = (scene.cells(), scene.cells(), scene.buffer());
    work(&mut Sides::new([
        Box::new(|| {
            black_box(scene.proved_frame(black_box(&mut proved)));
        }),
        Box::new(|| {
            black_box(scene.plain_frame(black_box(&mut plain)));
        }),
        Box::new(|| {
            black_box(black_box(&original).render(black_box(&mut buffer)));
        }),
    ]))
}

pub fn style<T>(screen: [u16; 2], work: impl FnOnce(&mut Sides) -> T) -> T {
    let scene = Scene::bare(screen);
    let titles = Records::new(&scene.titles, scene.ambiguous);
    let block = scene.widget(&titles);
    let area = scene.area();
    let (mut proved, mut plain, mut buffer) = (scene.cells(), scene.cells(), scene.buffer());

    scene.proved_block(&mut proved);
    scene.plain_block(&mut plain);
    (&block).render(area, &mut buffer);
    compare(&plain, &proved);
    compare_buffer(&buffer, &proved);

    work(&mut Sides::new([
        Box::new(|| scene.proved_block(black_box(&mut proved))),
        Box::new(|| scene.plain_block(black_box(&mut plain))),
        Box::new(|| (&block).render(black_box(area), black_box(&mut buffer))),
    ]))
}
