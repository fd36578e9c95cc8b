//! Masks: their points, their chords and length list, and the costs that follow from these.

use std::collections::BTreeSet;
use std::fmt;

/// The farthest that a point of a mask lies from the origin, to either side or up or down.
pub const REACH: i32 = 15;

/// A point: `u` to the right, `v` downward. Points are in order by row, and in a row from the left.
#[derive(Clone, Copy, Debug, PartialEq, Eq, PartialOrd, Ord)]
pub struct Point {
    pub v: i32,
    pub u: i32,
}

impl Point {
    /// The point (u, v).
    pub const fn new(u: i32, v: i32) -> Self {
        Point { v, u }
    }

    /// Whether it lies beyond 15, to either side or up or down.
    pub fn is_beyond(self) -> bool {
        self.u.abs() > REACH || self.v.abs() > REACH
    }
}

impl fmt::Display for Point {
    fn fmt(&self, f: &mut fmt::Formatter<'_>) -> fmt::Result {
        write!(f, "({}, {})", self.u, self.v)
    }
}

/// Why a list of points makes no mask.
#[derive(Clone, Copy, Debug, PartialEq, Eq)]
pub enum MaskRefusal {
    /// The list is empty.
    NoPoints,
    /// A point lies beyond 15; the first such point stands at this place of the list, counted from 0.
    Beyond { place: usize },
}

impl MaskRefusal {
    /// The number of the refusal.
    pub fn number(self) -> u32 {
        match self {
            MaskRefusal::NoPoints => 7,
            MaskRefusal::Beyond { .. } => 8,
        }
    }
}

/// A run of points in one row that cannot be lengthened at either end.
#[derive(Clone, Copy, Debug, PartialEq, Eq)]
pub struct Chord {
    /// Its row v.
    pub row: i32,
    /// The u of its first point.
    pub start: i32,
    /// How many points it has.
    pub length: u32,
}

/// A non-empty set of points, each offset from −15 to 15.
#[derive(Clone, Debug, PartialEq, Eq)]
pub struct Mask {
    points: BTreeSet<Point>,
}

impl Mask {
    /// The mask of the listed points, in which repeats count once.
    pub fn from_points(points: &[Point]) -> Result<Self, MaskRefusal> {
        if points.is_empty() {
            return Err(MaskRefusal::NoPoints);
        }
        match points.iter().position(|point| point.is_beyond()) {
            Some(place) => Err(MaskRefusal::Beyond { place }),
            None => Ok(Mask { points: points.iter().copied().collect() }),
        }
    }

    /// Its points, row by row, each row from the left.
    pub fn points(&self) -> impl Iterator<Item = Point> + '_ {
        self.points.iter().copied()
    }

    /// How many distinct points it has.
    pub fn count(&self) -> usize {
        self.points.len()
    }

    /// Whether it holds the point (u, v).
    pub fn holds(&self, u: i32, v: i32) -> bool {
        self.points.contains(&Point::new(u, v))
    }

    /// Its chords, by row and then by start: one from each point that has no left neighbour.
    pub fn chords(&self) -> Vec<Chord> {
        self.points()
            .filter(|point| !self.holds(point.u - 1, point.v))
            .map(|first| Chord { row: first.v, start: first.u, length: self.run_from(first) })
            .collect()
    }

    /// How many points stand in an unbroken run from this one to the right.
    fn run_from(&self, first: Point) -> u32 {
        (first.u..).take_while(|&u| self.holds(u, first.v)).map(|_| 1).sum()
    }

    /// Its length list R(0), R(1), .., in rising order.
    pub fn lengths(&self) -> Vec<u32> {
        let mut listed: BTreeSet<u32> = self.chords().iter().map(|chord| chord.length).collect();
        for length in (2..=31).rev() {
            let served = listed.range(..length).any(|&shorter| 2 * shorter >= length);
            if listed.contains(&length) && !served {
                listed.insert(length.div_ceil(2));
            }
        }
        listed.into_iter().collect()
    }

    /// V, the number of rows from min(v, 0) to max(v, 0) over its points.
    pub fn rows(&self) -> u64 {
        let north = self.points().map(|point| point.v).fold(0, i32::min);
        let south = self.points().map(|point| point.v).fold(0, i32::max);
        u64::from(south.abs_diff(north)) + 1
    }

    /// The cells of the table that a filter needs on a sheet of this width.
    pub fn table_cells(&self, width: u64) -> u64 {
        let lengths = self.lengths().len() as u64;
        self.rows() * lengths * (width + 30)
    }

    /// The picks of one erosion or dilation on a sheet of this size.
    pub fn filter_picks(&self, width: u64, height: u64) -> u64 {
        let chords = self.chords().len() as u64;
        let line: u64 = self.lengths().iter().skip(1).map(|&length| width + 31 - u64::from(length)).sum();
        (height + self.rows() - 1) * line + width * height * (chords - 1)
    }
}

#[cfg(test)]
mod tests {
    use super::*;

    fn mask(points: &[(i32, i32)]) -> Mask {
        let points: Vec<Point> = points.iter().map(|&(u, v)| Point::new(u, v)).collect();
        Mask::from_points(&points).expect("points of a mask")
    }

    fn bar(length: i32) -> Mask {
        let points: Vec<(i32, i32)> = (0..length).map(|step| (step - 15, 0)).collect();
        mask(&points)
    }

    fn letter_h() -> Mask {
        mask(&[(-1, -1), (1, -1), (-1, 0), (0, 0), (1, 0), (-1, 1), (1, 1)])
    }

    #[test]
    fn no_points_make_no_mask() {
        assert_eq!(Mask::from_points(&[]), Err(MaskRefusal::NoPoints));
        assert_eq!(MaskRefusal::NoPoints.number(), 7);
    }

    #[test]
    fn the_first_point_beyond_15_is_told() {
        let list = [Point::new(15, -15), Point::new(0, -16), Point::new(16, 0)];
        assert_eq!(Mask::from_points(&list), Err(MaskRefusal::Beyond { place: 1 }));
        assert!(Mask::from_points(&list[..1]).is_ok());
        assert_eq!(MaskRefusal::Beyond { place: 1 }.number(), 8);
    }

    #[test]
    fn repeats_count_once() {
        assert_eq!(mask(&[(0, 0), (1, 0), (0, 0)]).count(), 2);
    }

    #[test]
    fn points_go_by_row_and_then_from_the_left() {
        let listed: Vec<Point> = mask(&[(1, 1), (0, 1), (5, -2)]).points().collect();
        assert_eq!(listed, [Point::new(5, -2), Point::new(0, 1), Point::new(1, 1)]);
    }

    #[test]
    fn a_gap_parts_two_chords() {
        let chords = mask(&[(-2, 0), (-1, 0), (1, 0)]).chords();
        let expected = [Chord { row: 0, start: -2, length: 2 }, Chord { row: 0, start: 1, length: 1 }];
        assert_eq!(chords, expected);
    }

    #[test]
    fn a_chord_may_span_all_columns() {
        assert_eq!(bar(31).chords(), [Chord { row: 0, start: -15, length: 31 }]);
    }

    #[test]
    fn lengths_are_halved_rounding_up_until_they_serve() {
        assert_eq!(bar(1).lengths(), [1]);
        assert_eq!(bar(2).lengths(), [1, 2]);
        assert_eq!(bar(7).lengths(), [1, 2, 4, 7]);
        assert_eq!(bar(9).lengths(), [1, 2, 3, 5, 9]);
        assert_eq!(bar(31).lengths(), [1, 2, 4, 8, 16, 31]);
    }

    #[test]
    fn a_listed_length_serves_another() {
        // 7 has 5 below it, 5 has 3, 3 wants 2, and 2 wants 1.
        let three_bars: Vec<(i32, i32)> =
            [(7, 0), (5, 1), (3, 2)].into_iter().flat_map(|(long, v)| (0..long).map(move |u| (u, v))).collect();
        assert_eq!(mask(&three_bars).lengths(), [1, 2, 3, 5, 7]);
    }

    #[test]
    fn the_rows_count_the_origin() {
        assert_eq!(mask(&[(0, 0)]).rows(), 1);
        assert_eq!(mask(&[(0, 4)]).rows(), 5);
        assert_eq!(mask(&[(0, -4), (2, -3)]).rows(), 5);
        assert_eq!(mask(&[(0, -15), (0, 15)]).rows(), 31);
    }

    #[test]
    fn the_letter_h_on_a_sheet_of_4_by_4() {
        let letter = letter_h();
        assert_eq!(letter.chords().len(), 5);
        assert_eq!(letter.lengths(), [1, 2, 3]);
        assert_eq!(letter.rows(), 3);
        assert_eq!(letter.table_cells(4), 306);
        assert_eq!(letter.filter_picks(4, 4), 454);
    }

    #[test]
    fn the_costs_of_two_points_and_of_a_square() {
        let pair = mask(&[(0, 0), (1, 0)]);
        assert_eq!((pair.table_cells(3), pair.filter_picks(3, 1)), (66, 32));
        let square = mask(&[(0, 0), (1, 0), (0, 1), (1, 1)]);
        assert_eq!((square.table_cells(5), square.filter_picks(5, 4)), (140, 190));
    }

    #[test]
    fn the_origin_alone_makes_no_picks() {
        let origin = mask(&[(0, 0)]);
        assert_eq!((origin.table_cells(4), origin.filter_picks(4, 4)), (34, 0));
    }
}
