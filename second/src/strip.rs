//! Strips: words and what they say, and the reading of a job with its first refusal.

use crate::cell::CellKind;
use crate::filter::Filter;
use crate::mask::{Point, REACH};
use crate::sheet::{Rectangle, Size};

/// The bytes of a word.
pub const WORD: usize = 4;

/// The most bytes that a strip has.
pub const LONGEST: usize = 65_536;

/// What a word with a kind says.
#[derive(Clone, Copy, Debug, PartialEq, Eq)]
pub enum Item {
    /// The kind of cell as it is numbered, which may be no kind, and the size.
    Head { kind: u32, size: Size },
    /// How many raw words follow.
    Cells(u32),
    /// The column and the row of a window's corner.
    Corner { column: usize, row: usize },
    /// The size of a window.
    Extent(Size),
    /// A point, whose offsets go from −15 to 16.
    Point(Point),
    /// A call of a filter.
    Call(Filter),
    /// The end of the strip.
    End,
}

/// The bits of a word from `high` down to `low`, as a number.
fn bits(word: u32, high: u32, low: u32) -> u32 {
    (word >> low) & (u32::MAX >> (31 - (high - low)))
}

/// The two fields of twelve bits in which heads, corners and extents tell columns and rows.
fn twelves(word: u32) -> (usize, usize) {
    (bits(word, 23, 12) as usize, bits(word, 11, 0) as usize)
}

/// The offset that a field of five bits means.
fn offset(field: u32) -> i32 {
    field as i32 - REACH
}

impl Item {
    /// What a word says, or none where it says nothing.
    pub fn of_word(word: u32) -> Option<Self> {
        let (across, down) = twelves(word);
        let body = bits(word, 27, 0);
        let size = Size { width: across, height: down };
        match bits(word, 31, 28) {
            1 => Some(Item::Head { kind: bits(word, 27, 24), size }),
            2 => Some(Item::Cells(body)),
            3 if bits(word, 27, 24) == 0 => Some(Item::Corner { column: across, row: down }),
            4 if bits(word, 27, 24) == 0 => Some(Item::Extent(size)),
            5 if bits(word, 27, 10) == 0 => {
                Some(Item::Point(Point::new(offset(bits(word, 9, 5)), offset(bits(word, 4, 0)))))
            }
            6 => Filter::from_number(body).map(Item::Call),
            7 if body == 0 => Some(Item::End),
            _ => None,
        }
    }
}

/// Why a strip is refused.
#[derive(Clone, Copy, Debug, PartialEq, Eq)]
pub enum Ground {
    /// The strip has over 65,536 bytes.
    TooLong,
    /// Fewer than four bytes stand where a word is due.
    Missing,
    /// The word says nothing: its kind, its call or an unused bit is wrong.
    SaysNothing,
    /// The word is not due where it stands, or bytes follow the end.
    NotDue,
    /// A head's kind of cell is none, or a cells word is not the width times the height.
    Wrong,
    /// A raw word is no cell of its kind.
    NoCell,
}

/// A refusal of a strip: its ground and the word that it is told with.
#[derive(Clone, Copy, Debug, PartialEq, Eq)]
pub struct Refusal {
    pub ground: Ground,
    pub word: usize,
}

impl Refusal {
    fn new(ground: Ground, word: usize) -> Self {
        Refusal { ground, word }
    }

    /// The number of the refusal, 1 to 6.
    pub fn number(self) -> u32 {
        match self.ground {
            Ground::TooLong => 1,
            Ground::Missing => 2,
            Ground::SaysNothing => 3,
            Ground::NotDue => 4,
            Ground::Wrong => 5,
            Ground::NoCell => 6,
        }
    }
}

/// A step of a job.
#[derive(Clone, Copy, Debug, PartialEq, Eq)]
pub enum Step {
    /// A point of a mask, and the word where it stands.
    Point { point: Point, word: usize },
    /// A call of a filter.
    Call(Filter),
}

/// What a strip tells: a sheet, perhaps a window of it, and steps.
#[derive(Clone, Debug, PartialEq, Eq)]
pub struct Job {
    pub kind: CellKind,
    /// The size in the head.
    pub size: Size,
    /// The raw words, row by row.
    pub raws: Vec<u32>,
    pub window: Option<Rectangle>,
    pub steps: Vec<Step>,
}

/// A strip that is being read, word by word.
struct Reader<'a> {
    bytes: &'a [u8],
    next: usize,
}

impl Reader<'_> {
    /// Takes a word that is due, and tells where it stands.
    fn word_due(&mut self) -> Result<(usize, u32), Refusal> {
        let place = self.next;
        let word = self.bytes.chunks_exact(WORD).nth(place).ok_or(Refusal::new(Ground::Missing, place))?;
        self.next += 1;
        Ok((place, word.iter().fold(0, |number, &byte| number << 8 | u32::from(byte))))
    }

    /// Takes what the word that is due says.
    fn item_due(&mut self) -> Result<(usize, Item), Refusal> {
        let (place, word) = self.word_due()?;
        let item = Item::of_word(word).ok_or(Refusal::new(Ground::SaysNothing, place))?;
        Ok((place, item))
    }

    /// Takes the head.
    fn shape_due(&mut self) -> Result<(CellKind, Size), Refusal> {
        match self.item_due()? {
            (place, Item::Head { kind, size }) => {
                let kind = CellKind::from_number(kind).ok_or(Refusal::new(Ground::Wrong, place))?;
                Ok((kind, size))
            }
            (place, _) => Err(Refusal::new(Ground::NotDue, place)),
        }
    }

    /// Takes the cells word of a sheet of this size.
    fn count_due(&mut self, size: Size) -> Result<usize, Refusal> {
        let due = size.width * size.height;
        match self.item_due()? {
            (_, Item::Cells(count)) if count as usize == due => Ok(due),
            (place, Item::Cells(_)) => Err(Refusal::new(Ground::Wrong, place)),
            (place, _) => Err(Refusal::new(Ground::NotDue, place)),
        }
    }

    /// Takes a raw word of this kind.
    fn raw_due(&mut self, kind: CellKind) -> Result<u32, Refusal> {
        let (place, word) = self.word_due()?;
        if kind.is_cell(word) {
            Ok(word)
        } else {
            Err(Refusal::new(Ground::NoCell, place))
        }
    }

    /// Takes the extent that a corner wants.
    fn extent_due(&mut self) -> Result<Size, Refusal> {
        match self.item_due()? {
            (_, Item::Extent(size)) => Ok(size),
            (place, _) => Err(Refusal::new(Ground::NotDue, place)),
        }
    }

    /// Takes the window, if one stands next.
    fn window_due(&mut self) -> Result<Option<Rectangle>, Refusal> {
        let before = self.next;
        match self.item_due()? {
            (_, Item::Corner { column, row }) => Ok(Some(Rectangle { column, row, extent: self.extent_due()? })),
            _ => {
                self.next = before;
                Ok(None)
            }
        }
    }

    /// Takes the step that is due, or the end.
    fn step_due(&mut self) -> Result<Option<Step>, Refusal> {
        match self.item_due()? {
            (word, Item::Point(point)) => Ok(Some(Step::Point { point, word })),
            (_, Item::Call(filter)) => Ok(Some(Step::Call(filter))),
            (_, Item::End) => Ok(None),
            (place, _) => Err(Refusal::new(Ground::NotDue, place)),
        }
    }

    /// Takes the steps, and the end behind them.
    fn steps_due(&mut self) -> Result<Vec<Step>, Refusal> {
        std::iter::from_fn(|| self.step_due().transpose()).collect()
    }

    /// Wants that nothing is left.
    fn ended(&self) -> Result<(), Refusal> {
        if self.bytes.len() == WORD * self.next {
            Ok(())
        } else {
            Err(Refusal::new(Ground::NotDue, self.next))
        }
    }
}

/// The job of a strip, or its first refusal.
pub fn read(bytes: &[u8]) -> Result<Job, Refusal> {
    if bytes.len() > LONGEST {
        return Err(Refusal::new(Ground::TooLong, LONGEST / WORD));
    }
    let mut reader = Reader { bytes, next: 0 };
    let (kind, size) = reader.shape_due()?;
    let count = reader.count_due(size)?;
    let raws = (0..count).map(|_| reader.raw_due(kind)).collect::<Result<_, _>>()?;
    let window = reader.window_due()?;
    let steps = reader.steps_due()?;
    reader.ended()?;
    Ok(Job { kind, size, raws, window, steps })
}

#[cfg(test)]
mod tests {
    use super::*;
    use crate::cases::strip_of_line;

    fn told(line: &str) -> Result<Job, (u32, usize)> {
        let bytes = strip_of_line(line).expect("a line of a case file");
        read(&bytes).map_err(|refusal| (refusal.number(), refusal.word))
    }

    fn refused(line: &str) -> (u32, usize) {
        told(line).expect_err("a strip that is refused")
    }

    const WORKED: &str = "11003001 20000003 00000007 00000009 00000004 500001EF 5000020F 60000003 70000000";

    #[test]
    fn the_worked_strip() {
        let job = told(WORKED).expect("a strip");
        assert_eq!(job.kind, CellKind::Gray);
        assert_eq!(job.size, Size { width: 3, height: 1 });
        assert_eq!(job.raws, [7, 9, 4]);
        assert_eq!(job.window, None);
        let steps = [
            Step::Point { point: Point::new(0, 0), word: 5 },
            Step::Point { point: Point::new(1, 0), word: 6 },
            Step::Call(Filter::Open),
        ];
        assert_eq!(job.steps, steps);
    }

    #[test]
    fn a_window_stands_behind_the_cells() {
        let job = told("11003001 20000003 00000007 00000009 00000004 30001000 40002001 500001EF 70000000");
        let job = job.expect("a strip");
        let window = Rectangle { column: 1, row: 0, extent: Size { width: 2, height: 1 } };
        assert_eq!(job.window, Some(window));
        assert_eq!(job.steps, [Step::Point { point: Point::new(0, 0), word: 7 }]);
    }

    #[test]
    fn the_smallest_strips_have_no_cells_and_no_steps() {
        let job = told("11000000 20000000 70000000").expect("a strip");
        assert_eq!((job.raws.len(), job.steps.len()), (0, 0));
    }

    #[test]
    fn words_and_what_they_say() {
        assert_eq!(Item::of_word(0x5000_01EF), Some(Item::Point(Point::new(0, 0))));
        assert_eq!(Item::of_word(0x5000_0000), Some(Item::Point(Point::new(-15, -15))));
        assert_eq!(Item::of_word(0x5000_03FF), Some(Item::Point(Point::new(16, 16))));
        assert_eq!(Item::of_word(0x5000_0400), None);
        assert_eq!(Item::of_word(0x2FFF_FFFF), Some(Item::Cells(0x0FFF_FFFF)));
        assert_eq!(Item::of_word(0x30FF_F001), Some(Item::Corner { column: 4095, row: 1 }));
        assert_eq!(Item::of_word(0x3100_0000), None);
        assert_eq!(Item::of_word(0x4800_0000), None);
        assert_eq!(Item::of_word(0x6000_0001), Some(Item::Call(Filter::Erode)));
        assert_eq!(Item::of_word(0x6000_0000), None);
        assert_eq!(Item::of_word(0x6000_0005), None);
        assert_eq!(Item::of_word(0x7000_0001), None);
        assert_eq!(Item::of_word(0x0000_0000), None);
        assert_eq!(Item::of_word(0x8000_0000), None);
    }

    #[test]
    fn a_strip_that_is_too_long() {
        assert_eq!(refused("repeat 00 65537"), (1, 16_384));
        assert_eq!(refused("repeat 00 65536"), (3, 0));
        assert!(told("11001001 20000001 00000000 repeat 500001EF 16380 70000000").is_ok());
        assert_eq!(refused("11001001 20000001 00000000 repeat 500001EF 16381 70000000"), (1, 16_384));
    }

    #[test]
    fn a_word_that_is_missing() {
        assert_eq!(refused("empty"), (2, 0));
        assert_eq!(refused("110030"), (2, 0));
        assert_eq!(refused("11003001"), (2, 1));
        assert_eq!(refused("11003001 20000003 00000007 000000"), (2, 3));
        assert_eq!(refused("11000000 20000000 30000000"), (2, 3));
        assert_eq!(refused("11000000 20000000 600000"), (2, 2));
        assert_eq!(refused("11FFFFFF 20FFE001"), (2, 2));
    }

    #[test]
    fn a_word_that_says_nothing_before_its_order() {
        assert_eq!(refused("31000000"), (3, 0));
        assert_eq!(refused("11000000 20000000 70000001"), (3, 2));
        assert_eq!(refused("11000000 20000000 30000000 41000000"), (3, 3));
    }

    #[test]
    fn a_word_that_is_not_due() {
        assert_eq!(refused("20000003"), (4, 0));
        assert_eq!(refused("11003001 19003001"), (4, 1));
        assert_eq!(refused("11000000 20000000 30000000 70000000"), (4, 3));
        assert_eq!(refused("11000000 20000000 40000000"), (4, 2));
        assert_eq!(refused("11000000 20000000 30000000 40000000 30000000"), (4, 4));
        assert_eq!(refused("11000000 20000000 500001EF 30000000"), (4, 3));
        assert_eq!(refused("11000000 20000000 70000000 00"), (4, 3));
        assert_eq!(refused("11000000 20000000 70000000 000000"), (4, 3));
        assert_eq!(refused("11000000 20000000 70000000 70000000"), (4, 3));
    }

    #[test]
    fn a_kind_or_a_count_that_is_wrong() {
        assert_eq!(refused("10003001"), (5, 0));
        assert_eq!(refused("15003001"), (5, 0));
        assert_eq!(refused("11003001 20000004"), (5, 1));
        assert_eq!(refused("11000005 20000005"), (5, 1));
    }

    #[test]
    fn a_raw_word_that_is_no_cell() {
        assert_eq!(refused("11003001 20000003 00000007 00000100"), (6, 3));
        assert_eq!(refused("14001001 20000001 7F800001"), (6, 2));
        assert_eq!(refused("13001001 20000001 70000000"), (6, 2));
        assert_eq!(refused("11FFFFFF 20FFE001 00000000 FFFFFFFF"), (6, 3));
    }
}
