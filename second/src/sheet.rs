//! Sheets of cells, and the holders that show them: rows, south-up and windows.

use crate::cell::Cell;

/// A width and a height in cells.
#[derive(Clone, Copy, Debug, PartialEq, Eq)]
pub struct Size {
    pub width: usize,
    pub height: usize,
}

/// A rectangle that is asked for on a sheet: its corner, and how far it extends.
#[derive(Clone, Copy, Debug, PartialEq, Eq)]
pub struct Rectangle {
    pub column: usize,
    pub row: usize,
    pub extent: Size,
}

/// Something that means a sheet. Column and row count from 0, and row 0 is the northmost.
pub trait Holder<C> {
    /// The size of the sheet.
    fn size(&self) -> Size;

    /// The cell at a place, or none off the sheet.
    fn get(&self, x: usize, y: usize) -> Option<C>;

    /// Makes a cell the one at a place; off the sheet it changes nothing and answers no.
    fn put(&mut self, x: usize, y: usize, cell: C) -> bool;
}

impl<C, H: Holder<C> + ?Sized> Holder<C> for Box<H> {
    fn size(&self) -> Size {
        (**self).size()
    }

    fn get(&self, x: usize, y: usize) -> Option<C> {
        (**self).get(x, y)
    }

    fn put(&mut self, x: usize, y: usize, cell: C) -> bool {
        (**self).put(x, y, cell)
    }
}

/// Cells row by row. The height is the number of whole rows, and width 0 is 0 by 0.
#[derive(Clone, Debug, PartialEq, Eq)]
pub struct Rows<C> {
    width: usize,
    cells: Vec<C>,
}

impl<C> Rows<C> {
    /// The rows of this width that the cells fill.
    pub fn new(width: usize, cells: Vec<C>) -> Self {
        Rows { width, cells }
    }

    /// Where the cell of a place lies in the list, if the place is on the sheet.
    fn index(&self, x: usize, y: usize) -> Option<usize> {
        let height = self.cells.len().checked_div(self.width)?;
        (x < self.width && y < height).then_some(y * self.width + x)
    }
}

impl<C: Copy> Holder<C> for Rows<C> {
    fn size(&self) -> Size {
        match self.cells.len().checked_div(self.width) {
            Some(height) => Size { width: self.width, height },
            None => Size { width: 0, height: 0 },
        }
    }

    fn get(&self, x: usize, y: usize) -> Option<C> {
        self.index(x, y).map(|place| self.cells[place])
    }

    fn put(&mut self, x: usize, y: usize, cell: C) -> bool {
        match self.index(x, y) {
            Some(place) => {
                self.cells[place] = cell;
                true
            }
            None => false,
        }
    }
}

/// Shows row y as the row height − 1 − y of the holder below.
#[derive(Clone, Debug)]
pub struct SouthUp<H> {
    below: H,
}

impl<H> SouthUp<H> {
    /// South-up over this holder.
    pub fn new(below: H) -> Self {
        SouthUp { below }
    }

    /// The row of the holder below that is shown as row y.
    fn mirrored<C>(&self, y: usize) -> Option<usize>
    where
        H: Holder<C>,
    {
        self.below.size().height.checked_sub(y + 1)
    }
}

impl<C, H: Holder<C>> Holder<C> for SouthUp<H> {
    fn size(&self) -> Size {
        self.below.size()
    }

    fn get(&self, x: usize, y: usize) -> Option<C> {
        self.below.get(x, self.mirrored(y)?)
    }

    fn put(&mut self, x: usize, y: usize, cell: C) -> bool {
        match self.mirrored(y) {
            Some(row) => self.below.put(x, row, cell),
            None => false,
        }
    }
}

/// Shows the part of an asked rectangle that lies on the holder below, or 0 by 0 where none does.
#[derive(Clone, Debug)]
pub struct Window<H> {
    below: H,
    asked: Rectangle,
}

impl<H> Window<H> {
    /// The window of this rectangle over a holder.
    pub fn new(below: H, asked: Rectangle) -> Self {
        Window { below, asked }
    }

    /// The place on the holder below that is shown at a place of the window, if that is on the window.
    fn through<C>(&self, x: usize, y: usize) -> Option<(usize, usize)>
    where
        H: Holder<C>,
    {
        let Size { width, height } = self.size();
        (x < width && y < height).then_some((self.asked.column + x, self.asked.row + y))
    }
}

/// How much of a side lies on the sheet: of `asked` places from `start` on, those below `whole`.
fn shared(start: usize, asked: usize, whole: usize) -> usize {
    (start + asked).min(whole).saturating_sub(start)
}

impl<C, H: Holder<C>> Holder<C> for Window<H> {
    fn size(&self) -> Size {
        let whole = self.below.size();
        let width = shared(self.asked.column, self.asked.extent.width, whole.width);
        let height = shared(self.asked.row, self.asked.extent.height, whole.height);
        if width == 0 || height == 0 {
            Size { width: 0, height: 0 }
        } else {
            Size { width, height }
        }
    }

    fn get(&self, x: usize, y: usize) -> Option<C> {
        let (column, row) = self.through(x, y)?;
        self.below.get(column, row)
    }

    fn put(&mut self, x: usize, y: usize, cell: C) -> bool {
        match self.through(x, y) {
            Some((column, row)) => self.below.put(column, row, cell),
            None => false,
        }
    }
}

/// A sheet by itself: the cells that a holder shows.
#[derive(Clone, Debug, PartialEq, Eq)]
pub struct Sheet<C> {
    size: Size,
    cells: Vec<C>,
}

impl<C: Cell> Sheet<C> {
    /// The sheet that a holder means.
    pub fn shown_by(holder: &(impl Holder<C> + ?Sized)) -> Self {
        Sheet::from_places(holder.size(), |x, y| holder.get(x, y).expect("a place of the sheet has a cell"))
    }

    /// The sheet of this size with the cell that is said of each place.
    pub fn from_places(size: Size, cell_at: impl Fn(usize, usize) -> C) -> Self {
        let cell_at = &cell_at;
        let cells = (0..size.height).flat_map(|y| (0..size.width).map(move |x| cell_at(x, y))).collect();
        Sheet { size, cells }
    }

    /// Its size.
    pub fn size(&self) -> Size {
        self.size
    }

    /// The cell at the place (x + u, y + v), or none where that is off the sheet.
    pub fn beside(&self, (x, y): (usize, usize), (u, v): (i32, i32)) -> Option<C> {
        let column = moved(x, u).filter(|&column| column < self.size.width)?;
        let row = moved(y, v).filter(|&row| row < self.size.height)?;
        Some(self.cells[row * self.size.width + column])
    }

    /// Its rows, the northmost first; a sheet without columns has none to show.
    pub fn rows(&self) -> impl Iterator<Item = &[C]> {
        self.cells.chunks(self.size.width.max(1))
    }

    /// Puts every cell into a holder of the same size.
    pub fn put_into(&self, holder: &mut (impl Holder<C> + ?Sized)) {
        for (y, row) in self.rows().enumerate() {
            for (x, &cell) in row.iter().enumerate() {
                holder.put(x, y, cell);
            }
        }
    }
}

/// A column or row with an offset added, or none where that falls below 0.
fn moved(place: usize, offset: i32) -> Option<usize> {
    let distance = offset.unsigned_abs() as usize;
    if offset < 0 {
        place.checked_sub(distance)
    } else {
        place.checked_add(distance)
    }
}

#[cfg(test)]
mod tests {
    use super::*;
    use crate::cell::Gray;

    fn counted(width: usize, height: usize) -> Rows<Gray> {
        Rows::new(width, (0..width * height).map(|place| Gray(place as u8)).collect())
    }

    fn asked(column: usize, row: usize, width: usize, height: usize) -> Rectangle {
        Rectangle { column, row, extent: Size { width, height } }
    }

    fn shown(holder: &impl Holder<Gray>) -> Vec<Vec<u8>> {
        Sheet::shown_by(holder).rows().map(|row| row.iter().map(|cell| cell.0).collect()).collect()
    }

    #[test]
    fn rows_are_whole_rows() {
        assert_eq!(Rows::new(3, vec![Gray(0); 7]).size(), Size { width: 3, height: 2 });
        assert_eq!(Rows::<Gray>::new(5, vec![]).size(), Size { width: 5, height: 0 });
        assert_eq!(Rows::<Gray>::new(0, vec![]).size(), Size { width: 0, height: 0 });
    }

    #[test]
    fn a_place_off_the_sheet_has_no_cell() {
        let mut rows = counted(3, 2);
        assert_eq!(rows.get(2, 1), Some(Gray(5)));
        assert_eq!(rows.get(3, 0), None);
        assert_eq!(rows.get(0, 2), None);
        assert!(!rows.put(3, 0, Gray(9)));
        assert_eq!(rows, counted(3, 2));
    }

    #[test]
    fn south_up_shows_the_last_row_first() {
        let mut holder = SouthUp::new(counted(2, 3));
        assert_eq!(shown(&holder), [[4, 5], [2, 3], [0, 1]]);
        assert!(holder.put(1, 0, Gray(9)));
        assert_eq!(shown(&holder.below), [[0, 1], [2, 3], [4, 9]]);
        assert_eq!(holder.get(0, 3), None);
    }

    #[test]
    fn a_window_shows_what_lies_on_the_sheet() {
        let window = Window::new(counted(6, 3), asked(4, 1, 5, 5));
        assert_eq!(shown(&window), [[10, 11], [16, 17]]);
        assert_eq!(window.get(2, 0), None);
    }

    #[test]
    fn a_put_reaches_through_a_window() {
        let mut window = Window::new(counted(3, 2), asked(1, 1, 1, 1));
        assert!(window.put(0, 0, Gray(9)));
        assert!(!window.put(1, 0, Gray(8)));
        assert_eq!(shown(&window.below), [[0, 1, 2], [3, 9, 5]]);
    }

    #[test]
    fn a_window_without_a_part_on_the_sheet_is_0_by_0() {
        let none = Size { width: 0, height: 0 };
        for rectangle in [asked(0, 0, 0, 2), asked(0, 0, 2, 0), asked(3, 0, 2, 2), asked(0, 2, 2, 2)] {
            assert_eq!(Window::new(counted(3, 2), rectangle).size(), none, "{rectangle:?}");
        }
    }

    #[test]
    fn a_window_far_out_counts_as_asked() {
        let window = Window::new(counted(3, 2), asked(1, 1, 4095, 4095));
        assert_eq!(shown(&window), [[4, 5]]);
        assert_eq!(Window::new(counted(3, 2), asked(4095, 0, 4095, 1)).size(), Size { width: 0, height: 0 });
    }

    #[test]
    fn a_window_over_south_up_counts_on_what_is_shown() {
        let pile = Window::new(SouthUp::new(counted(2, 3)), asked(0, 0, 2, 1));
        assert_eq!(shown(&pile), [[4, 5]]);
    }
}
