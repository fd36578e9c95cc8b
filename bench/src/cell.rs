//! The kinds of cell that are timed, and for each how the proved library, plain C and the direct way filter it.

use std::ffi::c_int;

/// A filter that is timed.
#[derive(Clone, Copy, PartialEq, Eq)]
pub enum Call {
    Erode,
    Open,
}

/// A cell as it lies in memory.
pub trait Cell: Copy + PartialEq + 'static {
    const KIND: &'static str;

    /// The cell that stands where the sheet has none, in an erosion and in a dilation.
    const GREATEST: Self;
    const LEAST: Self;

    /// A cell from 32 random bits.
    fn made(bits: u32) -> Self;

    /// What a cell counts as, which a filter leaves in its place.
    fn counted(self) -> Self;

    /// The lower and the higher of two counted cells.
    fn lower(self, other: Self) -> Self;
    fn higher(self, other: Self) -> Self;

    fn bytes(self) -> [u8; 4];
    const SIZE: usize;

    /// The proved filter, and the one in plain C, if they have the call.
    fn proved(call: Call) -> Option<Proved<Self>>;
    fn plain(call: Call) -> Option<Plain<Self>>;
}

/// A mask as the proved library keeps it. It is made by that library alone.
#[repr(C)]
#[derive(Clone, Copy)]
pub struct ProvedMask {
    rows: [u32; 31],
}

/// A point of a mask.
#[repr(C)]
#[derive(Clone, Copy)]
pub struct Point {
    pub u: i32,
    pub v: i32,
}

/// What the proved library tells of a filter.
#[repr(C)]
pub struct Told {
    pub refusal: u8,
    pub values: [usize; 4],
    pub picks: u64,
}

pub type Proved<C> = unsafe extern "C" fn(usize, *mut C, usize, *const ProvedMask, *mut C, usize) -> Told;
pub type Plain<C> = unsafe extern "C" fn(*const u32, *mut C, c_int, c_int, *mut C);

extern "C" {
    fn kelundap_fresh_mask() -> ProvedMask;
    fn kelundap_draw_mask(mask: *mut ProvedMask, points: *const Point, count: usize) -> u8;
    fn kelundap_table_cells(mask: *const ProvedMask, width: u64) -> u64;
    fn kelundap_erode_gray(w: usize, cells: *mut u8, n: usize, mask: *const ProvedMask, table: *mut u8, m: usize) -> Told;
    fn kelundap_open_gray(w: usize, cells: *mut u8, n: usize, mask: *const ProvedMask, table: *mut u8, m: usize) -> Told;
    fn kelundap_erode_height(w: usize, cells: *mut i32, n: usize, mask: *const ProvedMask, table: *mut i32, m: usize) -> Told;
    fn kelundap_erode_return(w: usize, cells: *mut u32, n: usize, mask: *const ProvedMask, table: *mut u32, m: usize) -> Told;
    fn chords_erode_gray(rows: *const u32, cells: *mut u8, w: c_int, h: c_int, table: *mut u8);
    fn chords_open_gray(rows: *const u32, cells: *mut u8, w: c_int, h: c_int, table: *mut u8);
    fn chords_erode_height(rows: *const u32, cells: *mut i32, w: c_int, h: c_int, table: *mut i32);
    fn chords_erode_return(rows: *const u32, cells: *mut u32, w: c_int, h: c_int, table: *mut u32);
}

impl ProvedMask {
    /// The mask of the points, or the number of the refusal.
    pub fn of(points: &[Point]) -> Result<ProvedMask, u8> {
        // The mask is one of the library's own before the call and after it.
        unsafe {
            let mut mask = kelundap_fresh_mask();
            match kelundap_draw_mask(&mut mask, points.as_ptr(), points.len()) {
                0 => Ok(mask),
                refusal => Err(refusal),
            }
        }
    }

    /// How many cells a table needs for sheets of the width.
    pub fn table_cells(&self, width: usize) -> usize {
        unsafe { kelundap_table_cells(self, width as u64) as usize }
    }
}

/// Filters the sheet by the proved library. Any lengths will do: it refuses what it cannot filter.
pub fn filter_proved<C: Cell>(filter: Proved<C>, width: usize, cells: &mut [C], mask: &ProvedMask, table: &mut [C]) -> Told {
    unsafe { filter(width, cells.as_mut_ptr(), cells.len(), mask, table.as_mut_ptr(), table.len()) }
}

/// Filters the sheet by plain C, which trusts the lengths: so they are tried here.
pub fn filter_plain<C: Cell>(filter: Plain<C>, width: usize, cells: &mut [C], rows: &[u32; 31], table: &mut [C], needed: usize) {
    assert!((1..=2048).contains(&width) && cells.len() % width == 0 && table.len() >= needed);
    let height = cells.len() / width;
    unsafe { filter(rows.as_ptr(), cells.as_mut_ptr(), width as c_int, height as c_int, table.as_mut_ptr()) }
}

impl Cell for u8 {
    const KIND: &'static str = "gray";
    const GREATEST: u8 = u8::MAX;
    const LEAST: u8 = 0;
    const SIZE: usize = 1;

    fn made(bits: u32) -> u8 {
        (bits >> 24) as u8
    }
    fn counted(self) -> u8 {
        self
    }
    fn lower(self, other: u8) -> u8 {
        self.min(other)
    }
    fn higher(self, other: u8) -> u8 {
        self.max(other)
    }
    fn bytes(self) -> [u8; 4] {
        [self, 0, 0, 0]
    }
    fn proved(call: Call) -> Option<Proved<u8>> {
        Some(match call {
            Call::Erode => kelundap_erode_gray,
            Call::Open => kelundap_open_gray,
        })
    }
    fn plain(call: Call) -> Option<Plain<u8>> {
        Some(match call {
            Call::Erode => chords_erode_gray,
            Call::Open => chords_open_gray,
        })
    }
}

impl Cell for i32 {
    const KIND: &'static str = "height";
    const GREATEST: i32 = i32::MAX;
    const LEAST: i32 = i32::MIN;
    const SIZE: usize = 4;

    fn made(bits: u32) -> i32 {
        bits as i32
    }
    fn counted(self) -> i32 {
        self
    }
    fn lower(self, other: i32) -> i32 {
        self.min(other)
    }
    fn higher(self, other: i32) -> i32 {
        self.max(other)
    }
    fn bytes(self) -> [u8; 4] {
        self.to_le_bytes()
    }
    fn proved(call: Call) -> Option<Proved<i32>> {
        (call == Call::Erode).then_some(kelundap_erode_height as Proved<i32>)
    }
    fn plain(call: Call) -> Option<Plain<i32>> {
        (call == Call::Erode).then_some(chords_erode_height as Plain<i32>)
    }
}

/// A return, by its bits.
impl Cell for u32 {
    const KIND: &'static str = "return";
    const GREATEST: u32 = 0x7f80_0000;
    const LEAST: u32 = 0xff80_0000;
    const SIZE: usize = 4;

    fn made(bits: u32) -> u32 {
        bits
    }
    fn counted(self) -> u32 {
        match self {
            0x8000_0000 => 0,
            0..=0x7fff_ffff => self.min(0x7f80_0000),
            _ => self.min(0xff80_0000),
        }
    }
    fn lower(self, other: u32) -> u32 {
        if f32::from_bits(other) < f32::from_bits(self) { other } else { self }
    }
    fn higher(self, other: u32) -> u32 {
        if f32::from_bits(other) > f32::from_bits(self) { other } else { self }
    }
    fn bytes(self) -> [u8; 4] {
        self.to_le_bytes()
    }
    fn proved(call: Call) -> Option<Proved<u32>> {
        (call == Call::Erode).then_some(kelundap_erode_return as Proved<u32>)
    }
    fn plain(call: Call) -> Option<Plain<u32>> {
        (call == Call::Erode).then_some(chords_erode_return as Plain<u32>)
    }
}
