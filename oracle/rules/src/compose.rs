//! 'Wrapping', the tally, and `LineTruncator` of 'After the pages'.

use oracle::{Alignment, AmbiguousWidth, Tally, Wrap};

use crate::place::{Place, places};
use crate::{Glyph, Line, lines, width};

/// A composed line. C-17: "a mark: 1 on the last composed line of each text line, 0 on others".
#[derive(Debug, PartialEq)]
pub struct Composed {
    pub glyphs: Vec<Glyph>,
    pub alignment: Alignment,
    pub mark: u64,
}

impl Composed {
    /// Returns the entry: "first 15 | end 15 | width 16 | alignment 2 (resolved) | 16 zeros. First
    /// and end are record numbers, end one past, both 0 where the line holds no glyph." C-17: "The
    /// first of the 16 zero bits of a composed line becomes a mark."
    pub fn entry(&self) -> u64 {
        let [first, end] = match &self.glyphs[..] {
            [] => [0, 0],
            [only] => [only.number, only.number + 1],
            [first, .., last] => [first.number, last.number + 1],
        };
        let alignment = match self.alignment {
            Alignment::Left => 0,
            Alignment::Center => 1,
            Alignment::Right => 2,
        };
        let fields = [
            (u64::from(first), 15),
            (u64::from(end), 15),
            (width(&self.glyphs) as u64, 16),
            (alignment, 2),
            (self.mark, 1),
            (0, 15),
        ];
        fields.into_iter().fold(0, |entry, (field, bits)| entry * 2_u64.pow(bits) + field)
    }
}

/// The composed lines of a text, and the glyphs that wrapping skips or drops.
#[derive(Default)]
pub struct Text {
    pub lines: Vec<Composed>,
    pub over_wide: Vec<Glyph>,
    pub dropped: Vec<Glyph>,
}

pub fn compose(
    records: &[u32],
    ambiguous: AmbiguousWidth,
    default_alignment: Alignment,
    limit: i64,
    wrap: Wrap,
) -> Text {
    let mut text = Text::default();
    if limit == 0 {
        return text;
    }
    for line in lines(records, ambiguous) {
        let alignment = [Alignment::Left, Alignment::Center, Alignment::Right, default_alignment]
            [line.alignment as usize];
        let composed = match wrap {
            Wrap::On { trim } => wrapped(&line, limit, trim, &mut text),
            Wrap::Off { column } => vec![truncated(&line, limit, i64::from(column), alignment)],
        };
        text.lines.extend(marked(composed, alignment));
    }
    text
}

/// Marks the last of the lines composed from one text line.
fn marked(mut composed: Vec<Vec<Glyph>>, alignment: Alignment) -> Vec<Composed> {
    let last = composed.pop().map(|glyphs| Composed { glyphs, alignment, mark: 1 });
    let others = composed.into_iter().map(|glyphs| Composed { glyphs, alignment, mark: 0 });
    others.chain(last).collect()
}

fn wrapped(line: &Line, limit: i64, trim: bool, text: &mut Text) -> Vec<Vec<Glyph>> {
    let mut emitted: Vec<Vec<Glyph>> = vec![];
    let (mut row, mut spaces, mut word) = (vec![], vec![], vec![]);
    let mut previous_solid = false;
    for &glyph in &line.glyphs {
        let w = glyph.width;
        // Step 1.
        if w > limit {
            text.over_wide.push(glyph);
            continue;
        }
        // Step 2.
        let overflows = if trim {
            width(&word) + w > limit || width(&spaces) + w > limit
        } else {
            width(&word) + width(&spaces) + w > limit
        };
        if glyph.space && previous_solid || row.is_empty() && overflows {
            if !row.is_empty() || !trim {
                row.append(&mut spaces);
            }
            row.append(&mut word);
            text.dropped.append(&mut spaces);
        }
        // Step 3.
        let pending = width(&row) + width(&spaces) + width(&word);
        if width(&row) >= limit || w > 0 && pending >= limit {
            let mut room = (limit - width(&row)).max(0);
            emitted.push(std::mem::take(&mut row));
            while spaces.first().is_some_and(|space: &Glyph| space.width <= room) {
                room -= spaces[0].width;
                text.dropped.push(spaces.remove(0));
            }
            if glyph.space && spaces.is_empty() {
                text.dropped.push(glyph);
                continue;
            }
        }
        // Step 4.
        if glyph.space { &mut spaces } else { &mut word }.push(glyph);
        previous_solid = !glyph.space;
    }
    // At the line's end.
    if row.is_empty() && word.is_empty() && !spaces.is_empty() && trim {
        emitted.push(vec![]);
    }
    if !row.is_empty() || !trim {
        row.append(&mut spaces);
    }
    row.append(&mut word);
    if !row.is_empty() {
        emitted.push(row);
    }
    if emitted.is_empty() {
        emitted.push(vec![]);
    }
    text.dropped.append(&mut spaces);
    emitted
}

fn truncated(line: &Line, limit: i64, mut offset: i64, alignment: Alignment) -> Vec<Glyph> {
    if alignment != Alignment::Left {
        offset = 0;
    }
    let mut shown = vec![];
    for &glyph in line.glyphs.iter().filter(|glyph| glyph.width <= limit) {
        if width(&shown) + glyph.width > limit {
            break;
        }
        if offset > 0 && glyph.width <= offset {
            offset -= glyph.width;
        } else {
            offset = 0;
            shown.push(glyph);
        }
    }
    shown
}

/// The tally, with the limit as the right edge. C-14: "The case "abW" at limit 3 now has two placed
/// and one clipped."
pub fn tally(records: &[u32], ambiguous: AmbiguousWidth, limit: i64, trim: bool) -> Tally {
    let text = compose(records, ambiguous, Alignment::Left, limit, Wrap::On { trim });
    let mut tally = Tally {
        lines: text.lines.len() as u32,
        over_wide: text.over_wide.len() as u32,
        dropped: text.dropped.len() as u32,
        ..Tally::default()
    };
    for line in &text.lines {
        for (_, _, place) in places(&line.glyphs, 0, limit) {
            match place {
                Place::ZeroWidth => tally.zero_width += 1,
                Place::Inside => tally.placed += 1,
                Place::Halved | Place::Outside => tally.clipped += 1,
            }
            tally.halved += u32::from(place == Place::Halved);
        }
    }
    tally
}
