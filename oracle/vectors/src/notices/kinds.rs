//! Counts the cases of each kind, which shows that most of them draw something.

use oracle::{Drawn, Outcome, Rect};

use super::answers::{notice_counts, text_counts};
use super::{Case, DRAWN, FRAMES, SCREENS, TEXTS};
use crate::Part;

/// Prints for each part how many notices, and how many texts alone, place a glyph, clip one, halve
/// one, or draw no row, and how many frames overhang the screen, meet no cell, or have no inner
/// cell.
pub fn print_kinds() {
    for (file, counts) in [(DRAWN.file, notice_counts as fn(&_) -> _), (TEXTS.file, text_counts)] {
        for part in &SCREENS {
            print_counts(file, part, counts);
        }
    }
    for part in &SCREENS {
        print_frames(part);
    }
}

fn print_counts(file: &str, part: &Part<Case>, counts: fn(&Case) -> Outcome<Drawn>) {
    let (mut placing, mut clipping, mut halving, mut rowless) = (0, 0, 0, 0);
    for number in 0..part.count {
        if let Outcome::Value(drawn) = counts(&(part.case)(number)) {
            let Drawn { rows, placed, clipped, halved } = drawn;
            placing += u32::from(placed > 0);
            clipping += u32::from(clipped > 0);
            halving += u32::from(halved > 0);
            rowless += u32::from(rows == 0);
        }
    }
    println!(
        "{file}, {}: {placing} place a glyph, {clipping} clip one and have the answer of `rules`, \
         {halving} of these halve one, {rowless} draw no row",
        part.name
    );
}

fn print_frames(part: &Part<Case>) {
    let (mut overhanging, mut nowhere, mut innerless) = (0, 0, 0);
    for number in 0..part.count {
        let Case { notice, area, ref titles, columns, rows, .. } = (part.case)(number);
        let met = area.intersection(Rect::new(0, 0, columns, rows));
        let inner = oracle::drawn_inner(columns.into(), rows.into(), titles, area, notice.block);
        overhanging += u32::from(!met.is_empty() && met != area);
        nowhere += u32::from(met.is_empty());
        innerless += u32::from(matches!(inner, Outcome::Value(inner) if inner.is_empty()));
    }
    println!(
        "{}, {}: {overhanging} overhang the screen, {nowhere} meet no cell, {innerless} have no \
         inner cell",
        FRAMES.file, part.name
    );
}
