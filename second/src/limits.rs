//! What is taken and what is refused on either side of each limit, one line each.

use std::fmt::Display;

use crate::cell::{Cell, CellKind, Gray};
use crate::filter::{self, Filter, FilterRefusal};
use crate::listing::TABLE;
use crate::mask::{Mask, MaskRefusal, Point};
use crate::sheet::{Rows, Size};
use crate::strip;

/// The seven points of the letter H, centred on the origin.
const LETTER_H: [Point; 7] = [
    Point::new(-1, -1),
    Point::new(1, -1),
    Point::new(-1, 0),
    Point::new(0, 0),
    Point::new(1, 0),
    Point::new(-1, 1),
    Point::new(1, 1),
];

/// The lines of all limits.
pub fn limits() -> String {
    let tables = [306, 305].map(|table| {
        let what = format!("letter H, sheet 4 by 4, table {table}, erode");
        line(what, erosion(&LETTER_H, Size { width: 4, height: 4 }, table))
    });
    let offsets = [15, 16].map(|offset| line(format!("points (0, 0) ({offset}, 0)"), mask_made(offset)));
    let widths = [2048, 2049].map(|width| {
        let pair = [Point::new(0, 0), Point::new(1, 0)];
        let what = format!("points (0, 0) (1, 0), sheet {width} by 1, table {TABLE}, erode");
        line(what, erosion(&pair, Size { width, height: 1 }, TABLE))
    });
    let grays = [255, 256].map(|word| line(format!("gray word {word}"), taken_in(CellKind::Gray, word)));
    let returns = [0x7F80_0000, 0x7F80_0001]
        .map(|word| line(format!("return word {word:08X}"), taken_in(CellKind::Return, word)));
    let lengths = [65_536, 65_537].map(|length| line(format!("strip of {length} bytes"), strip_read(length)));
    [tables, offsets, widths, grays, returns, lengths].concat().concat()
}

/// A line: what is tried, and what comes of it.
fn line(what: impl Display, outcome: impl Display) -> String {
    format!("{what}: {outcome}\n")
}

/// What an erosion of a gray sheet of this size answers.
fn erosion(points: &[Point], size: Size, table: u64) -> String {
    let mask = Mask::from_points(points).expect("points of a mask");
    let mut rows = Rows::new(size.width, vec![Gray::LEAST; size.width * size.height]);
    match filter::call(Filter::Erode, &mut rows, Some(&mask), table) {
        Ok(picks) => format!("picks {picks}"),
        Err(refusal) => {
            let values = match refusal {
                FilterRefusal::Size(Size { width, height }) => format!(" width {width} height {height}"),
                FilterRefusal::NoMask => String::new(),
                FilterRefusal::Table { needed, lent } => format!(" needed {needed} lent {lent}"),
            };
            format!("refused {}{values}", refusal.number())
        }
    }
}

/// What the making of a mask of the origin and one point in its row answers.
fn mask_made(offset: i32) -> String {
    match Mask::from_points(&[Point::new(0, 0), Point::new(offset, 0)]) {
        Ok(mask) => format!("mask {} chords {}", mask.count(), mask.chords().len()),
        Err(MaskRefusal::Beyond { place }) => format!("refused 8 place {place}"),
        Err(refusal) => format!("refused {}", refusal.number()),
    }
}

/// Whether a word is a cell of a kind.
fn taken_in(kind: CellKind, word: u32) -> &'static str {
    if kind.is_cell(word) {
        "a cell"
    } else {
        "no cell"
    }
}

/// What the reading of a strip of this length answers: one gray cell, as many points as fit, and the end, with zero
/// bytes behind it where the length is beyond the limit.
fn strip_read(length: usize) -> String {
    let (front, end) = ([0x1100_1001, 0x2000_0001, 0], 0x7000_0000);
    let points = strip::LONGEST / strip::WORD - front.len() - 1;
    let words = front.into_iter().chain(std::iter::repeat_n(0x5000_01EF, points)).chain([end]);
    let mut bytes: Vec<u8> = words.flat_map(u32::to_be_bytes).collect();
    bytes.resize(length, 0);
    match strip::read(&bytes) {
        Ok(job) => format!("read, steps {}", job.steps.len()),
        Err(refusal) => format!("refused {} word {}", refusal.number(), refusal.word),
    }
}

#[cfg(test)]
mod tests {
    use super::*;

    #[test]
    fn either_side_of_each_limit() {
        let expected = "\
letter H, sheet 4 by 4, table 306, erode: picks 454
letter H, sheet 4 by 4, table 305, erode: refused 11 needed 306 lent 305
points (0, 0) (15, 0): mask 2 chords 2
points (0, 0) (16, 0): refused 8 place 1
points (0, 0) (1, 0), sheet 2048 by 1, table 16384, erode: picks 2077
points (0, 0) (1, 0), sheet 2049 by 1, table 16384, erode: refused 9 width 2049 height 1
gray word 255: a cell
gray word 256: no cell
return word 7F800000: a cell
return word 7F800001: no cell
strip of 65536 bytes: read, steps 16380
strip of 65537 bytes: refused 1 word 16384
";
        assert_eq!(limits(), expected);
    }
}
