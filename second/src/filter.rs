//! The four filters by their definitions, their answers and their refusals.

use crate::cell::Cell;
use crate::mask::{Mask, Point};
use crate::sheet::{Holder, Sheet, Size};

/// The largest width, and the largest height, of a sheet that is filtered.
pub const SIDE: usize = 2_048;

/// A filter that a job calls.
#[derive(Clone, Copy, Debug, PartialEq, Eq)]
pub enum Filter {
    Erode,
    Dilate,
    Open,
    Close,
}

impl Filter {
    /// All filters, in the order of their numbers.
    pub const ALL: [Filter; 4] = [Filter::Erode, Filter::Dilate, Filter::Open, Filter::Close];

    /// The filter with this number in a call word.
    pub fn from_number(number: u32) -> Option<Self> {
        Self::ALL.into_iter().find(|filter| filter.number() == number)
    }

    /// The number of this filter in a call word, 1 to 4.
    pub fn number(self) -> u32 {
        match self {
            Filter::Erode => 1,
            Filter::Dilate => 2,
            Filter::Open => 3,
            Filter::Close => 4,
        }
    }

    /// The word for this filter in a listing.
    pub fn name(self) -> &'static str {
        match self {
            Filter::Erode => "erode",
            Filter::Dilate => "dilate",
            Filter::Open => "open",
            Filter::Close => "close",
        }
    }

    /// The sheet that this filter makes of a sheet.
    pub fn applied<C: Cell>(self, sheet: &Sheet<C>, mask: &Mask) -> Sheet<C> {
        match self {
            Filter::Erode => eroded(sheet, mask),
            Filter::Dilate => dilated(sheet, mask),
            Filter::Open => dilated(&eroded(sheet, mask), mask),
            Filter::Close => eroded(&dilated(sheet, mask), mask),
        }
    }

    /// The picks that it makes on a sheet of this size.
    pub fn picks(self, size: Size, mask: &Mask) -> u64 {
        let once = mask.filter_picks(size.width as u64, size.height as u64);
        match self {
            Filter::Erode | Filter::Dilate => once,
            Filter::Open | Filter::Close => 2 * once,
        }
    }
}

/// At each place the meet over the points whose place has a cell, or the greatest cell if none has.
pub fn eroded<C: Cell>(sheet: &Sheet<C>, mask: &Mask) -> Sheet<C> {
    let points: Vec<Point> = mask.points().collect();
    Sheet::from_places(sheet.size(), |x, y| {
        let reached = points.iter().filter_map(|point| sheet.beside((x, y), (point.u, point.v)));
        reached.fold(C::GREATEST, C::meet)
    })
}

/// At each place the join over the turned points whose place has a cell, or the least cell if none has.
pub fn dilated<C: Cell>(sheet: &Sheet<C>, mask: &Mask) -> Sheet<C> {
    let points: Vec<Point> = mask.points().collect();
    Sheet::from_places(sheet.size(), |x, y| {
        let reached = points.iter().filter_map(|point| sheet.beside((x, y), (-point.u, -point.v)));
        reached.fold(C::LEAST, C::join)
    })
}

/// Why a filter does not go ahead.
#[derive(Clone, Copy, Debug, PartialEq, Eq)]
pub enum FilterRefusal {
    /// The sheet's width or height is 0 or above 2,048.
    Size(Size),
    /// No mask is laid.
    NoMask,
    /// The table has too few cells.
    Table { needed: u64, lent: u64 },
}

impl FilterRefusal {
    /// The number of the refusal.
    pub fn number(self) -> u32 {
        match self {
            FilterRefusal::Size(_) => 9,
            FilterRefusal::NoMask => 10,
            FilterRefusal::Table { .. } => 11,
        }
    }
}

/// The mask of a filter that goes ahead, or the first ground on which it is refused.
pub fn judged(size: Size, laid: Option<&Mask>, table: u64) -> Result<&Mask, FilterRefusal> {
    let sides = 1..=SIDE;
    if !sides.contains(&size.width) || !sides.contains(&size.height) {
        return Err(FilterRefusal::Size(size));
    }
    let mask = laid.ok_or(FilterRefusal::NoMask)?;
    let needed = mask.table_cells(size.width as u64);
    if table < needed {
        return Err(FilterRefusal::Table { needed, lent: table });
    }
    Ok(mask)
}

/// Filters the sheet of a holder and answers the picks; a filter that is refused changes nothing.
pub fn call<C: Cell>(
    filter: Filter,
    holder: &mut (impl Holder<C> + ?Sized),
    laid: Option<&Mask>,
    table: u64,
) -> Result<u64, FilterRefusal> {
    let size = holder.size();
    let mask = judged(size, laid, table)?;
    filter.applied(&Sheet::shown_by(holder), mask).put_into(holder);
    Ok(filter.picks(size, mask))
}

#[cfg(test)]
mod tests {
    use super::*;
    use crate::cell::{Flags, Gray, Height, Return};
    use crate::sheet::Rows;

    fn mask(points: &[(i32, i32)]) -> Mask {
        let points: Vec<Point> = points.iter().map(|&(u, v)| Point::new(u, v)).collect();
        Mask::from_points(&points).expect("points of a mask")
    }

    fn pair() -> Mask {
        mask(&[(0, 0), (1, 0)])
    }

    fn sheet<C: Cell>(width: usize, words: &[u32]) -> Sheet<C> {
        let cells = words.iter().map(|&word| C::from_word(word).expect("a cell")).collect();
        Sheet::shown_by(&Rows::new(width, cells))
    }

    fn words<C: Cell>(sheet: &Sheet<C>) -> Vec<u32> {
        sheet.rows().flatten().map(|cell| cell.to_word()).collect()
    }

    #[test]
    fn three_gray_cells_under_two_points() {
        let loaded = sheet::<Gray>(3, &[7, 9, 4]);
        let expected = [[7, 4, 4], [7, 9, 9], [7, 7, 4], [7, 9, 9]];
        for (filter, cells) in Filter::ALL.into_iter().zip(expected) {
            assert_eq!(words(&filter.applied(&loaded, &pair())), cells, "{filter:?}");
        }
    }

    #[test]
    fn the_bend_under_a_square() {
        let square = mask(&[(0, 0), (1, 0), (0, 1), (1, 1)]);
        let loaded = sheet::<Gray>(5, &[5, 5, 5, 5, 2, 5, 5, 2, 5, 5, 2, 2, 2, 5, 5, 2, 2, 2, 2, 8]);
        let eroded = Filter::Erode.applied(&loaded, &square);
        assert_eq!(words(&eroded), [5, 2, 2, 2, 2, 2, 2, 2, 5, 5, 2, 2, 2, 2, 5, 2, 2, 2, 2, 8]);
        let opened = Filter::Open.applied(&loaded, &square);
        assert_eq!(words(&opened), [5, 5, 2, 2, 2, 5, 5, 2, 5, 5, 2, 2, 2, 5, 5, 2, 2, 2, 2, 8]);
        let closed = Filter::Close.applied(&opened, &square);
        assert_eq!(words(&closed), [5, 5, 2, 2, 2, 5, 5, 5, 5, 5, 2, 2, 2, 5, 5, 2, 2, 2, 5, 8]);
        assert_eq!(Filter::Open.picks(loaded.size(), &square), 380);
    }

    #[test]
    fn a_mask_that_finds_no_cell_leaves_the_bounds() {
        let loaded = sheet::<Gray>(2, &[7, 9]);
        let eroded = Filter::Erode.applied(&loaded, &mask(&[(-1, 0)]));
        assert_eq!(words(&eroded), [255, 7]);
        assert_eq!(words(&Filter::Erode.applied(&eroded, &mask(&[(1, 0)]))), [7, 255]);
        assert_eq!(words(&Filter::Dilate.applied(&loaded, &mask(&[(1, 0)]))), [0, 7]);
        assert_eq!(words(&Filter::Dilate.applied(&loaded, &mask(&[(0, 9)]))), [0, 0]);
    }

    #[test]
    fn the_bounds_of_the_other_kinds() {
        let off = mask(&[(15, 15)]);
        let heights = sheet::<Height>(1, &[5]);
        assert_eq!(words(&Filter::Erode.applied(&heights, &off)), [0x7FFF_FFFF]);
        assert_eq!(words(&Filter::Dilate.applied(&heights, &off)), [0x8000_0000]);
        let returns = sheet::<Return>(1, &[0]);
        assert_eq!(words(&Filter::Erode.applied(&returns, &off)), [0x7F80_0000]);
        assert_eq!(words(&Filter::Dilate.applied(&returns, &off)), [0xFF80_0000]);
    }

    #[test]
    fn flags_are_filtered_mark_by_mark() {
        let loaded = sheet::<Flags>(3, &[0b011, 0b110, 0b100]);
        assert_eq!(words(&Filter::Erode.applied(&loaded, &pair())), [0b010, 0b100, 0b100]);
        assert_eq!(words(&Filter::Dilate.applied(&loaded, &pair())), [0b011, 0b111, 0b110]);
    }

    #[test]
    fn erosion_and_dilation_are_each_other_turned_over() {
        let turned_over = |sheet: &Sheet<Gray>| {
            let cells: Vec<u32> = words(sheet).into_iter().map(|word| 255 - word).collect();
            self::sheet::<Gray>(sheet.size().width, &cells)
        };
        let loaded = sheet::<Gray>(4, &[3, 200, 17, 9, 80, 255, 0, 41, 7, 7, 100, 60]);
        for points in [vec![(0, 0), (1, 0)], vec![(-1, 2), (3, 0), (0, 1)], vec![(2, -2)]] {
            let turned: Vec<(i32, i32)> = points.iter().map(|&(u, v)| (-u, -v)).collect();
            let expected = turned_over(&eroded(&turned_over(&loaded), &mask(&turned)));
            assert_eq!(dilated(&loaded, &mask(&points)), expected, "{points:?}");
        }
    }

    #[test]
    fn an_opening_lies_under_the_sheet_and_a_closing_over_it() {
        let loaded = sheet::<Gray>(4, &[3, 200, 17, 9, 80, 255, 0, 41, 7, 7, 100, 60]);
        for points in [vec![(0, 0), (1, 0)], vec![(-1, 2), (3, 0), (0, 1)], vec![(2, -2)], vec![(9, 9)]] {
            let mask = mask(&points);
            let (opened, closed) = (Filter::Open.applied(&loaded, &mask), Filter::Close.applied(&loaded, &mask));
            let between = words(&opened).into_iter().zip(words(&loaded)).zip(words(&closed));
            assert!(between.into_iter().all(|((low, cell), high)| low <= cell && cell <= high), "{points:?}");
            assert_eq!(Filter::Open.applied(&opened, &mask), opened, "{points:?}");
            assert_eq!(Filter::Close.applied(&closed, &mask), closed, "{points:?}");
        }
    }

    #[test]
    fn grounds_are_tried_in_order() {
        let wide = Size { width: SIDE + 1, height: 1 };
        assert_eq!(judged(wide, None, 0), Err(FilterRefusal::Size(wide)));
        let empty = Size { width: 1, height: 0 };
        assert_eq!(judged(empty, None, 0), Err(FilterRefusal::Size(empty)));
        let fair = Size { width: SIDE, height: SIDE };
        assert_eq!(judged(fair, None, 0), Err(FilterRefusal::NoMask));
        assert_eq!(judged(fair, Some(&pair()), 4_155), Err(FilterRefusal::Table { needed: 4_156, lent: 4_155 }));
        assert!(judged(fair, Some(&pair()), 4_156).is_ok());
    }

    #[test]
    fn a_refused_call_changes_nothing() {
        let mut rows = Rows::new(3, vec![Gray(7), Gray(9), Gray(4)]);
        let before = rows.clone();
        let refusal = call(Filter::Open, &mut rows, Some(&pair()), 65).unwrap_err();
        assert_eq!(refusal, FilterRefusal::Table { needed: 66, lent: 65 });
        assert_eq!(refusal.number(), 11);
        assert_eq!(rows, before);
        assert_eq!(call(Filter::Open, &mut rows, Some(&pair()), 66), Ok(64));
        assert_eq!(rows, Rows::new(3, vec![Gray(7), Gray(7), Gray(4)]));
    }
}
