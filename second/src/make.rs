//! Made case files: the fixed strips, and then strips of all kinds that are made by dice, some of them damaged.

use crate::cases::{line_of_strip, strip_of_line, Case};
use crate::cell::CellKind;
use crate::fixed::fixed;
use crate::strip::WORD;

/// A case file of this many strips, the fixed ones first. These always come whole, so a smaller number gives them alone.
pub fn case_file(seed: u64, count: usize) -> String {
    let mut dice = Dice { state: seed };
    let fixed: Vec<Case> = fixed().into_iter().map(written).collect();
    let wanted = count.saturating_sub(fixed.len());
    let made = CellKind::ALL.into_iter().cycle().take(wanted).map(|kind| made(&mut dice, kind));
    let cases: String = fixed.into_iter().chain(made).map(|case| case.to_string()).collect();
    format!("# second make {seed} {count}\n{cases}")
}

/// A fixed strip with its line in the form in which strips are written.
fn written(case: Case) -> Case {
    let strip = strip_of_line(&case.line).expect("a fixed strip is a line of a case file");
    Case { line: line_of_strip(&strip), ..case }
}

/// Numbers that look thrown and are always the same: the generator splitmix64.
struct Dice {
    state: u64,
}

impl Dice {
    /// The next number.
    fn next(&mut self) -> u64 {
        self.state = self.state.wrapping_add(0x9E37_79B9_7F4A_7C15);
        let mixed = (self.state ^ (self.state >> 30)).wrapping_mul(0xBF58_476D_1CE4_E5B9);
        let mixed = (mixed ^ (mixed >> 27)).wrapping_mul(0x94D0_49BB_1331_11EB);
        mixed ^ (mixed >> 31)
    }

    /// A word of 32 bits.
    fn word(&mut self) -> u32 {
        (self.next() >> 32) as u32
    }

    /// A number below a bound.
    fn below(&mut self, bound: usize) -> usize {
        (self.next() % bound as u64) as usize
    }

    /// A number from a least to a greatest.
    fn between(&mut self, least: i32, greatest: i32) -> i32 {
        least + self.below((greatest - least + 1) as usize) as i32
    }

    /// Yes, once in so many throws.
    fn once_in(&mut self, throws: usize) -> bool {
        self.below(throws) == 0
    }

    /// One of some values.
    fn one_of<T: Copy>(&mut self, values: &[T]) -> T {
        values[self.below(values.len())]
    }

    /// Changes the order of some values.
    fn shuffle<T>(&mut self, values: &mut [T]) {
        for last in (1..values.len()).rev() {
            values.swap(last, self.below(last + 1));
        }
    }
}

/// A width and a height that a head, or an extent, tells.
type Sides = (i32, i32);

/// The word of a kind with a body.
fn word(kind: u32, body: u32) -> u32 {
    kind << 28 | body
}

/// A body of two fields of twelve bits.
fn twelves((across, down): Sides) -> u32 {
    (across as u32) << 12 | down as u32
}

/// The word of a point.
fn point_word((u, v): (i32, i32)) -> u32 {
    word(5, ((u + 15) as u32) << 5 | (v + 15) as u32)
}

/// A strip with a sheet of a kind, perhaps damaged.
fn made(dice: &mut Dice, kind: CellKind) -> Case {
    let sides = made_sides(dice);
    let raws = made_raws(dice, kind, (sides.0 * sides.1) as usize);
    let window = if dice.once_in(3) { made_window(dice, sides) } else { vec![] };
    let mut comment = format!("made: {} {} by {}", kind.name(), sides.0, sides.1);
    if !window.is_empty() {
        comment += ", a window";
    }
    let head = word(1, kind.number() << 24 | twelves(sides));
    let cells = word(2, raws.len() as u32);
    let words = [vec![head, cells], raws, window, made_steps(dice), vec![word(7, 0)]].concat();
    let mut strip: Vec<u8> = words.into_iter().flat_map(u32::to_be_bytes).collect();
    if dice.once_in(4) {
        comment += ", ";
        comment += damage(dice, &mut strip);
    }
    Case { comment, line: line_of_strip(&strip) }
}

/// The sides of a sheet, mostly small ones.
fn made_sides(dice: &mut Dice) -> Sides {
    match dice.below(16) {
        0 => (dice.between(12, 22), dice.between(10, 18)),
        1 | 2 => (dice.between(10, 40), dice.between(1, 2)),
        3 | 4 => (dice.between(1, 2), dice.between(10, 40)),
        5 => dice.one_of(&[(0, 0), (0, 3), (3, 0), (1, 1)]),
        _ => (dice.between(1, 9), dice.between(1, 8)),
    }
}

/// Raw words that are cells of a kind: any, or a few that come often.
fn made_raws(dice: &mut Dice, kind: CellKind, count: usize) -> Vec<u32> {
    const HEIGHTS: [u32; 6] = [0, 1, 0xFFFF_FFFF, 0x8000_0000, 0x7FFF_FFFF, 0xFFFF_FF9C];
    const RETURNS: [u32; 12] = [
        0,
        0x8000_0000,
        1,
        0x8000_0001,
        0x3F80_0000,
        0xBF80_0000,
        0x7F7F_FFFF,
        0xFF7F_FFFF,
        0x7F80_0000,
        0xFF80_0000,
        0x4120_0000,
        0xC120_0000,
    ];
    let few = dice.once_in(2);
    let mut raws = Vec::new();
    while raws.len() < count {
        let raw = match (kind, few) {
            (CellKind::Gray | CellKind::Flags, true) => dice.one_of(&[0, 7, 7, 128, 255]),
            (CellKind::Gray | CellKind::Flags, false) => dice.word() & 0xFF,
            (CellKind::Height, true) => dice.one_of(&HEIGHTS),
            (CellKind::Height, false) => dice.between(-3000, 3000) as u32,
            (CellKind::Return, true) => dice.one_of(&RETURNS),
            (CellKind::Return, false) => dice.word(),
        };
        if kind.is_cell(raw) {
            raws.push(raw);
        }
    }
    raws
}

/// The words of a window that mostly lies on the sheet, at least in part.
fn made_window(dice: &mut Dice, (width, height): Sides) -> Vec<u32> {
    let corner = match dice.below(10) {
        0 => (dice.between(0, 4095), dice.between(0, 4095)),
        1 => (dice.between(0, width), dice.between(0, height)),
        _ => (dice.between(0, (width - 1).max(0) / 2), dice.between(0, (height - 1).max(0) / 2)),
    };
    let extent = match dice.below(10) {
        0 => (4095, dice.between(1, 4095)),
        1 => (dice.between(0, 2), dice.between(0, 2)),
        _ => (dice.between(1, width + 2), dice.between(1, height + 2)),
    };
    vec![word(3, twelves(corner)), word(4, twelves(extent))]
}

/// The words of some masks and calls.
fn made_steps(dice: &mut Dice) -> Vec<u32> {
    let mut steps = Vec::new();
    if dice.once_in(8) {
        steps.extend(made_calls(dice));
    }
    for _ in 0..dice.between(1, 3) {
        steps.extend(made_points(dice).into_iter().map(point_word));
        steps.extend(made_calls(dice));
    }
    if dice.once_in(8) {
        steps.extend(made_points(dice).into_iter().map(point_word));
    }
    steps
}

/// The words of one to four calls.
fn made_calls(dice: &mut Dice) -> Vec<u32> {
    (0..dice.between(1, 4)).map(|_| word(6, dice.one_of(&[1, 2, 3, 4]))).collect()
}

/// The points of a mask, or, now and then, of none since one lies beyond 15.
fn made_points(dice: &mut Dice) -> Vec<(i32, i32)> {
    let mut points = made_shape(dice);
    if dice.once_in(3) {
        dice.shuffle(&mut points);
    }
    if dice.once_in(4) {
        for _ in 0..dice.between(1, 3) {
            points.push(dice.one_of(&points.clone()));
        }
    }
    if dice.once_in(10) {
        for _ in 0..dice.between(1, 2) {
            let place = dice.below(points.len());
            points[place] = dice.one_of(&[(16, 0), (0, 16), (16, 16), (16, -15), (-15, 16)]);
        }
    }
    points
}

/// The points of a shape, none beyond 15.
fn made_shape(dice: &mut Dice) -> Vec<(i32, i32)> {
    match dice.below(30) {
        0 => grid(15).filter(|_| dice.once_in(2)).collect(),
        1..=5 => (0..dice.between(1, 5)).map(|_| (dice.between(-2, 2), dice.between(-2, 2))).collect(),
        6..=9 => {
            let (west, north) = (dice.between(-3, 1), dice.between(-3, 1));
            let (wide, high) = (dice.between(1, 4), dice.between(1, 4));
            rectangle((west, north), (wide, high)).collect()
        }
        10..=12 => {
            let within = dice.one_of(&[1, 2, 4, 5, 8, 10]);
            grid(3).filter(|(u, v)| u * u + v * v <= within).collect()
        }
        13..=17 => (0..dice.between(2, 12)).map(|_| (dice.between(-15, 15), dice.between(-15, 15))).collect(),
        18..=21 => {
            let north = dice.between(-5, 3);
            (north..north + dice.between(2, 5))
                .flat_map(|v| rectangle((dice.between(-6, 4), v), (dice.between(1, 9), 1)))
                .collect()
        }
        22..=24 => {
            let (u, v) = (dice.between(-12, 12), dice.between(-12, 12));
            (0..dice.between(2, 6)).map(|_| (u + dice.between(-3, 3), v + dice.between(-3, 3))).collect()
        }
        25 | 26 => {
            let high = dice.between(1, 3);
            grid(high).filter(|&(u, v)| u.abs() == high || v == 0).collect()
        }
        _ => {
            let wide = dice.between(6, 31);
            rectangle((dice.between(-15, 16 - wide), dice.between(-2, 2)), (wide, 1)).collect()
        }
    }
}

/// The points of a rectangle, row by row.
fn rectangle((west, north): (i32, i32), (wide, high): Sides) -> impl Iterator<Item = (i32, i32)> {
    (north..north + high).flat_map(move |v| (west..west + wide).map(move |u| (u, v)))
}

/// All points that lie at most so far to either side and up and down, row by row.
fn grid(reach: i32) -> impl Iterator<Item = (i32, i32)> {
    rectangle((-reach, -reach), (2 * reach + 1, 2 * reach + 1))
}

/// Damages a strip in one way, and tells how. A damaged strip may still be one.
fn damage(dice: &mut Dice, strip: &mut Vec<u8>) -> &'static str {
    let words = strip.len() / WORD;
    let place = WORD * dice.below(words);
    match dice.below(9) {
        0 => {
            strip.truncate(dice.below(strip.len()));
            "cut short"
        }
        1 => {
            let stray = dice.word().to_be_bytes();
            strip[place..place + WORD].copy_from_slice(&stray);
            "a word replaced"
        }
        2 => {
            let byte = dice.below(strip.len());
            strip[byte] ^= 1 << dice.below(8);
            "a bit turned"
        }
        3 => {
            strip.drain(place..place + WORD);
            "a word taken out"
        }
        4 => {
            let kind = dice.between(1, 7) as u32;
            let stray = word(kind, dice.one_of(&[0, 1, 0x1001, 0x0100_1001, 0x1EF])).to_be_bytes();
            strip.splice(place..place, stray);
            "a word put in"
        }
        5 => {
            let other = WORD * dice.below(words);
            for byte in 0..WORD {
                strip.swap(place + byte, other + byte);
            }
            "two words exchanged"
        }
        6 => {
            strip.extend((0..dice.between(1, 5)).map(|_| dice.one_of(&[0, 0x70])));
            "bytes behind the end"
        }
        7 => {
            // The last word but one is a step; where its body gets another bit, it mostly says nothing.
            let byte = (words - 2) * WORD + 1;
            strip[byte] |= 1 << dice.below(8);
            "a bit set near the end"
        }
        _ => {
            let raw = 2 * WORD;
            let stray = dice.one_of(&[0x100, 0x7F80_0001, 0xFFC0_0000, 0x8000_0000_u32]);
            strip[raw..raw + WORD].copy_from_slice(&stray.to_be_bytes());
            "the word behind the cells replaced"
        }
    }
}

#[cfg(test)]
mod tests {
    use super::*;
    use crate::cases::{listings, strips};

    #[test]
    fn the_first_numbers_of_the_dice() {
        // The first numbers of splitmix64 begun at 0, as they are commonly given.
        let mut dice = Dice { state: 0 };
        assert_eq!(dice.next(), 0xE220_A839_7B1D_CDAF);
        assert_eq!(dice.next(), 0x6E78_9E6A_A1B9_65F4);
    }

    #[test]
    fn as_many_strips_as_asked_and_the_same_each_time() {
        let text = case_file(5, 260);
        assert_eq!(strips(&text).expect("a case file").len(), 260);
        assert_eq!(case_file(5, 260), text);
        assert_ne!(case_file(6, 260), text);
    }

    #[test]
    fn the_fixed_strips_come_whole() {
        assert_eq!(strips(&case_file(5, 0)).expect("a case file").len(), fixed().len());
    }

    #[test]
    fn every_answer_comes_in_the_made_strips_or_the_fixed_ones() {
        let text = listings(&case_file(1, 300)).expect("a case file");
        for number in 1..=6 {
            assert!(text.contains(&format!("strip refused {number} ")), "{number}");
        }
        for filter in ["erode", "dilate", "open", "close"] {
            for number in 9..=11 {
                assert!(text.contains(&format!("{filter} refused {number}\n")), "{filter} {number}");
            }
        }
        for kind in CellKind::ALL {
            assert!(text.contains(&format!("sheet {} ", kind.name())));
        }
        assert!(text.contains("mask refused 8 word "));
    }
}
