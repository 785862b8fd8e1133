//! Draws the notice of examples/c in an area within the screen and in one that overhangs it: two pages
//! on blank cells, then the tally. Measures a text with an ambiguous glyph, read narrow and wide.
#![forbid(unsafe_code)]

use notice::{
    Alignment, AmbiguousWidth, Block, BorderSet, Borders, Effect, Notice, Padding, PageCounts,
    Rect, Refusal, Screen, Shadow, TitlePosition, Wrap, list_lines, tally,
};

const COLUMNS: usize = 34;
const ROWS: usize = 9;
const BLANK: u64 = 32 << 43;

// Style numbers: indices into the style table.
const PLAIN: u8 = 0;
const FRAME: u8 = 1;
const HEADLINE: u8 = 2;
const SHADE: u8 = 3;
const BADGE: u8 = 4;

/// Heads with the default alignment and, in a title, the block's position.
const TEXT_HEAD: u32 = 1 << 31 | 3 << 29;
const TITLE_HEAD: u32 = TEXT_HEAD | 2 << 27;

const TEXT: &str = "\
Barred since this morning: 1041, 1177, 2063 and 3310.

Holders of these badges go to the desk in the lobby. \
Doors 7 and 12 stay locked for all others until noon, and door 3 after it.";

/// A text whose arrow is ambiguous (Unicode UAX 11): screens show it in one cell or in two.
const ROUTE: &str = "7→3";

const AREA: Rect = Rect { x: 1, y: 1, width: 30, height: 7 };
const OVERHANGING: Rect = Rect { x: 0, y: 0, width: 40, height: 20 };

fn notice() -> Notice {
    let block = Block {
        borders: Borders { top: true, right: true, bottom: true, left: true },
        border_set: BorderSet {
            top_left: '╭'.into(),
            top_right: '╮'.into(),
            bottom_left: '╰'.into(),
            bottom_right: '╯'.into(),
            vertical_left: '│'.into(),
            vertical_right: '│'.into(),
            horizontal_top: '─'.into(),
            horizontal_bottom: '─'.into(),
        },
        border_style: FRAME,
        style: PLAIN,
        padding: Padding { left: 2, right: 1, top: 0, bottom: 0 },
        titles_style: FRAME,
        titles_alignment: Alignment::Center,
        titles_position: TitlePosition::Top,
        shadow: Some(Shadow { effect: Effect::Symbol('▒'.into()), style: SHADE, x: 2, y: 1 }),
    };
    Notice {
        block,
        style: PLAIN,
        text_style: PLAIN,
        alignment: Alignment::Left,
        wrap: Wrap::On { trim: true },
        ambiguous: AmbiguousWidth::Narrow,
        scroll: 0,
    }
}

/// Returns a style that sets a foreground and adds modifiers.
fn style(foreground: u64, add: u64) -> u64 {
    1 << 63 | foreground << 55 | add << 37
}

/// Returns a glyph of width 1; the arrow has width code 7, ambiguous.
fn glyph(symbol: char, style: u8) -> u32 {
    let width = if symbol == '→' { 7 } else { 1 };
    let whitespace = u32::from(symbol == ' ');
    u32::from(symbol) << 10 | width << 7 | whitespace << 6 | u32::from(style)
}

/// Returns the records of lines of plain text; digits have a separate style.
fn packed(head: u32, lines: &str, letters: u8, digits: u8) -> Vec<u32> {
    let record = |c: char| match c {
        '\n' => head,
        '0'..='9' => glyph(c, digits),
        _ => glyph(c, letters),
    };
    std::iter::once(head).chain(lines.chars().map(record)).collect()
}

fn symbol(cell: u64) -> char {
    char::from_u32((cell >> 43) as u32).unwrap_or('?')
}

/// Prints each row's symbols and, next to them, its foregrounds, a dot for none.
fn print_screen(cells: &[u64]) {
    let foreground = |cell: &u64| match (cell >> 35) as u8 {
        0 => '.',
        number => char::from(b'0' + number % 10),
    };
    for row in cells.chunks(COLUMNS) {
        let symbols: String = row.iter().copied().map(symbol).collect();
        let foregrounds: String = row.iter().map(foreground).collect();
        println!("{symbols}  {foregrounds}");
    }
}

/// Returns what the inner cells show, row by row, without blanks.
fn shown(cells: &[u64], inner: Rect) -> String {
    let [x, y, width, height] = [inner.x, inner.y, inner.width, inner.height].map(usize::from);
    let rows = cells.chunks(COLUMNS).skip(y).take(height);
    rows.flat_map(|row| &row[x..x + width]).copied().map(symbol).filter(|c| *c != ' ').collect()
}

/// Draws and prints the pages, then the tally, and checks that the pages show each glyph once.
fn draw_pages(
    mut notice: Notice,
    screen: &mut Screen,
    text: &[u32],
    titles: &[u32],
    area: Rect,
) -> Result<PageCounts, Refusal> {
    let counts = notice.pages(screen, text, titles, area)?;
    let PageCounts { inner, lines, pages } = counts;
    println!("inner area as drawn: {} {}, {} x {}", inner.x, inner.y, inner.width, inner.height);
    let (mut rows, mut placed, mut read) = (0, 0, String::new());
    for page in 0..pages {
        notice.scroll = page as u16 * inner.height;
        screen.cells.fill(BLANK);
        let framed = notice.draw_frame(screen, titles, area)?;
        assert_eq!(framed, inner, "the frame returns the inner area that pages does");
        let drawn = notice.draw_text(screen, text, framed)?;
        rows += drawn.rows;
        placed += drawn.placed;
        read += &shown(screen.cells, inner);
        print!("page {} of {pages}: rows {}, ", page + 1, drawn.rows);
        println!("placed {}, clipped {}", drawn.placed, drawn.clipped);
        print_screen(screen.cells);
    }
    assert_eq!(read, TEXT.replace([' ', '\n'], ""), "the whole text on the pages");
    let tally = tally(text, notice.ambiguous, inner.width, true)?;
    print!("tally: lines {}, placed {}, ", tally.lines, tally.placed);
    print!("clipped {}, zero-width {}, ", tally.clipped, tally.zero_width);
    println!("over-wide {}, dropped {}", tally.over_wide, tally.dropped);
    assert_eq!(lines, tally.lines, "as many lines as tallied");
    assert_eq!((rows, placed), (lines, tally.placed), "every line and glyph on the pages");
    Ok(counts)
}

/// Prints the columns of a text with an ambiguous glyph, read narrow and wide.
fn print_readings() -> Result<(), Refusal> {
    let text = packed(TEXT_HEAD, ROUTE, PLAIN, PLAIN);
    let columns = |ambiguous| Block::default().line_width(&text, ambiguous, &[]);
    let (narrow, wide) = (columns(AmbiguousWidth::Narrow)?, columns(AmbiguousWidth::Wide)?);
    println!("{ROUTE}: {narrow} columns read narrow, {wide} read wide");
    assert_eq!((narrow, wide), (3, 4), "the arrow in one cell and in two");
    Ok(())
}

fn main() -> Result<(), Refusal> {
    let styles = [0, style(4, 0), style(3, 1), style(8, 0), style(1, 1)];
    let text = packed(TEXT_HEAD, TEXT, PLAIN, BADGE);
    let titles = packed(TITLE_HEAD, " Lobby ", HEADLINE, HEADLINE);
    let mut notice = notice();
    let mut cells = [BLANK; COLUMNS * ROWS];
    let mut screen =
        Screen { columns: COLUMNS as u32, rows: ROWS as u32, cells: &mut cells, styles: &styles };

    let PageCounts { inner, lines, .. } = draw_pages(notice, &mut screen, &text, &titles, AREA)?;
    let count = notice.line_count(&text, &titles, inner.width)?;
    let width = notice.block.line_width(&text, notice.ambiguous, &titles)?;
    println!("on one page: {count} rows; unwrapped: {width} columns");
    let mut list = vec![0; lines as usize];
    let written =
        list_lines(&text, notice.ambiguous, Alignment::Left, inner.width, true, &mut list)?;
    let end = |entry: &u64| if entry >> 15 & 1 == 1 { " |" } else { "" };
    let line = |entry: &u64| format!(" {}-{}{}", entry >> 49, entry >> 34 & 0x7FFF, end(entry));
    println!("lines:{}", list[..written].iter().map(line).collect::<String>());
    print_readings()?;

    let Rect { x, y, width, height } = notice.block.inner(&titles, OVERHANGING)?;
    println!("an area that overhangs the screen, its inner area: {x} {y}, {width} x {height}");
    draw_pages(notice, &mut screen, &text, &titles, OVERHANGING)?;

    screen.cells.fill(BLANK);
    let corner = Rect { x: 28, y: 6, width: 20, height: 20 };
    notice.block.draw(&mut screen, &[], notice.ambiguous, corner)?;
    println!("a block over the edge of the screen, without titles:");
    print_screen(screen.cells);

    let before = screen.cells.to_vec();
    notice.block.border_style = styles.len() as u8;
    notice.text_style = styles.len() as u8;
    let frame = notice.draw_frame(&mut screen, &titles, AREA);
    let laid = notice.draw_text(&mut screen, &text, AREA);
    let pages = notice.pages(&screen, &text, &titles, AREA);
    assert_eq!(frame, Err(Refusal::StyleNumber));
    assert_eq!(laid, Err(Refusal::StyleNumber));
    assert_eq!(pages, Err(Refusal::StyleNumber), "pages refused as the two calls are");
    assert_eq!(screen.cells, before, "cells as they were");
    println!("a style number too high: {0}, {0}", Refusal::StyleNumber as u32);
    println!("all as promised");
    Ok(())
}
