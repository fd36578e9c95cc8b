//! The listing of a strip: what its job did, line by line.

use std::fmt::Write;

use crate::cell::{Cell, CellKind, Flags, Gray, Height, Return};
use crate::filter::{self, Filter};
use crate::mask::{Mask, MaskRefusal, Point};
use crate::sheet::{Holder, Rows, Sheet, SouthUp, Window};
use crate::strip::{self, Job, Step};

/// The cells of the table that every call of a job is lent.
pub const TABLE: u64 = 16_384;

/// The listing of a strip.
pub fn listing(bytes: &[u8]) -> String {
    match strip::read(bytes) {
        Ok(job) => job_listing(&job),
        Err(refusal) => format!("strip refused {} word {}\n", refusal.number(), refusal.word),
    }
}

/// The listing of a job.
fn job_listing(job: &Job) -> String {
    match job.kind {
        CellKind::Gray => listing_as::<Gray>(job),
        CellKind::Height => listing_as::<Height>(job),
        CellKind::Flags => listing_as::<Flags>(job),
        CellKind::Return => listing_as::<Return>(job),
    }
}

/// The holders of a job, the topmost of which is filtered: rows, south-up over a height sheet, and the window.
fn pile<C: Cell>(job: &Job) -> Box<dyn Holder<C>> {
    let cells = job.raws.iter().map(|&word| C::from_word(word).expect("raw words are cells of the kind")).collect();
    let rows = Rows::new(job.size.width, cells);
    let pile: Box<dyn Holder<C>> = match job.kind {
        CellKind::Height => Box::new(SouthUp::new(rows)),
        CellKind::Gray | CellKind::Flags | CellKind::Return => Box::new(rows),
    };
    match job.window {
        Some(asked) => Box::new(Window::new(pile, asked)),
        None => pile,
    }
}

/// A part of a job's steps: an unbroken run of points, or one call.
enum Part {
    Mask { points: Vec<Point>, first_word: usize },
    Call(Filter),
}

/// The steps of a job with each unbroken run of points taken together.
fn parts(steps: &[Step]) -> Vec<Part> {
    let mut parts = Vec::new();
    for &step in steps {
        match (step, parts.last_mut()) {
            (Step::Point { point, .. }, Some(Part::Mask { points, .. })) => points.push(point),
            (Step::Point { point, word }, _) => parts.push(Part::Mask { points: vec![point], first_word: word }),
            (Step::Call(filter), _) => parts.push(Part::Call(filter)),
        }
    }
    parts
}

/// The listing of a job whose cells are of the kind `C`.
fn listing_as<C: Cell>(job: &Job) -> String {
    let mut pile = pile::<C>(job);
    let mut laid: Option<Mask> = None;
    let size = pile.size();
    let mut lines = vec![format!("sheet {} {} {}", job.kind.name(), size.width, size.height)];
    for part in parts(&job.steps) {
        lines.push(match part {
            Part::Mask { points, first_word } => match Mask::from_points(&points) {
                Ok(mask) => {
                    let line = mask_line(&mask);
                    laid = Some(mask);
                    line
                }
                Err(refusal) => refused_mask_line(refusal, first_word),
            },
            Part::Call(filter) => match filter::call(filter, &mut *pile, laid.as_ref(), TABLE) {
                Ok(picks) => format!("{} {picks}", filter.name()),
                Err(refusal) => format!("{} refused {}", filter.name(), refusal.number()),
            },
        });
    }
    lines.extend(Sheet::shown_by(&*pile).rows().map(row_line));
    ended_lines(&lines)
}

/// The line of a mask that is laid.
fn mask_line(mask: &Mask) -> String {
    format!("mask {} chords {}", mask.count(), mask.chords().len())
}

/// The line of a run of points that makes no mask; its first point stands at the word that is given.
fn refused_mask_line(refusal: MaskRefusal, first_word: usize) -> String {
    let mut line = format!("mask refused {}", refusal.number());
    if let MaskRefusal::Beyond { place } = refusal {
        write!(line, " word {}", first_word + place).expect("a string takes what is written");
    }
    line
}

/// The line of a row: its cells, parted by single blanks.
fn row_line<C: Cell>(row: &[C]) -> String {
    row.iter().map(C::to_string).collect::<Vec<_>>().join(" ")
}

/// Lines, each ended by a line feed.
fn ended_lines(lines: &[String]) -> String {
    lines.iter().flat_map(|line| [line.as_str(), "\n"]).collect()
}

#[cfg(test)]
mod tests {
    use super::*;
    use crate::cases::strip_of_line;

    fn listed(line: &str) -> String {
        listing(&strip_of_line(line).expect("a line of a case file"))
    }

    #[test]
    fn the_worked_strip() {
        let strip = "11003001 20000003 00000007 00000009 00000004 500001EF 5000020F 60000003 70000000";
        assert_eq!(listed(strip), "sheet gray 3 1\nmask 2 chords 1\nopen 64\n7 7 4\n");
    }

    #[test]
    fn the_worked_strip_with_a_window() {
        let strip =
            "11003001 20000003 00000007 00000009 00000004 30001000 40002001 500001EF 5000020F 60000003 70000000";
        // 2 by 1 under one chord of 2: (1 + 1 - 1) * (2 + 31 - 2) = 31 picks, and twice as many.
        assert_eq!(listed(strip), "sheet gray 2 1\nmask 2 chords 1\nopen 62\n4 4\n");
    }

    #[test]
    fn a_refused_strip_is_one_line() {
        assert_eq!(listed("11003001 20000003 00000007 00000009 31000000"), "strip refused 6 word 4\n");
        assert_eq!(listed("empty"), "strip refused 2 word 0\n");
    }

    #[test]
    fn sizes_without_cells() {
        assert_eq!(listed("11005000 20000000 70000000"), "sheet gray 5 0\n");
        assert_eq!(listed("11000005 20000000 70000000"), "sheet gray 0 0\n");
        assert_eq!(listed("12005000 20000000 60000001 70000000"), "sheet height 5 0\nerode refused 9\n");
        assert_eq!(listed("11001001 20000001 00000007 30001000 40001001 70000000"), "sheet gray 0 0\n");
        assert_eq!(listed("11005000 20000000 30000000 40005005 70000000"), "sheet gray 0 0\n");
    }

    #[test]
    fn a_call_without_a_mask() {
        let strip = "11001001 20000001 00000007 60000002 500001EF 60000002 70000000";
        assert_eq!(listed(strip), "sheet gray 1 1\ndilate refused 10\nmask 1 chords 1\ndilate 0\n7\n");
    }

    #[test]
    fn a_refused_mask_is_dropped_whole_and_the_one_before_stays() {
        // (0, 0) (1, 0); erode; then (0, 0) (16, 0) (0, 16); erode again with the first mask.
        let strip = "11003001 20000003 00000007 00000009 00000004 500001EF 5000020F 60000001 \
                     500001EF 500003EF 500001FF 60000001 70000000";
        let expected = "sheet gray 3 1\nmask 2 chords 1\nerode 32\nmask refused 8 word 9\nerode 32\n4 4 4\n";
        assert_eq!(listed(strip), expected);
    }

    #[test]
    fn a_height_sheet_stands_south_up() {
        let strip = "12001003 20000003 FFFFFFFF 00000002 80000000 70000000";
        assert_eq!(listed(strip), "sheet height 1 3\n-2147483648\n2\n-1\n");
    }

    #[test]
    fn a_window_counts_on_what_south_up_shows() {
        let strip = "12001003 20000003 00000001 00000002 00000003 30000000 40001002 70000000";
        assert_eq!(listed(strip), "sheet height 1 2\n3\n2\n");
    }

    #[test]
    fn returns_are_listed_as_hexadecimal_digits() {
        let strip = "14002001 20000002 80000000 ff7fffff 70000000";
        assert_eq!(listed(strip), "sheet return 2 1\n00000000 FF7FFFFF\n");
    }

    #[test]
    fn a_table_that_is_too_small() {
        // One chord in each of 31 rows needs 31 * 1 * (W + 30) cells: 16,368 on a width of 498, 16,399 on 499.
        let points: String = (0..31).map(|v| format!("{:08X} ", 0x5000_01E0 + v)).collect();
        let strip = |width: u32| {
            format!("11{width:03X}001 {:08X} repeat 00000007 {width} {points} 60000001 70000000", 0x2000_0000 + width)
        };
        assert!(listed(&strip(498)).starts_with("sheet gray 498 1\nmask 31 chords 31\nerode 14940\n7 7"));
        assert!(listed(&strip(499)).starts_with("sheet gray 499 1\nmask 31 chords 31\nerode refused 11\n7 7"));
    }
}
