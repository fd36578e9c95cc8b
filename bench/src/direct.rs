//! The filters by their definition: at each place the lowest, or the highest, of the cells under the points of the mask.

use crate::cell::{Call, Cell, Point};

/// What a call makes of the sheet.
pub fn filtered<C: Cell>(call: Call, sheet: &[C], width: usize, points: &[Point]) -> Vec<C> {
    let sheet: Vec<C> = sheet.iter().map(|c| c.counted()).collect();
    let eroded = picked(&sheet, width, points, C::GREATEST, C::lower);
    match call {
        Call::Erode => eroded,
        Call::Open => {
            let turned: Vec<Point> = points.iter().map(|p| Point { u: -p.u, v: -p.v }).collect();
            picked(&eroded, width, &turned, C::LEAST, C::higher)
        }
    }
}

/// The pick under the points at each place, point by point and row by row.
fn picked<C: Cell>(sheet: &[C], width: usize, points: &[Point], pad: C, pick: impl Fn(C, C) -> C + Copy) -> Vec<C> {
    let height = sheet.len() / width;
    let mut out = vec![pad; sheet.len()];
    for point in points {
        let columns = (-point.u).max(0) as usize..width - (point.u.max(0) as usize).min(width);
        for y in 0..height {
            let Some(row) = y.checked_add_signed(point.v as isize).filter(|row| *row < height) else {
                continue;
            };
            if columns.is_empty() {
                continue;
            }
            let from = columns.start.wrapping_add_signed(point.u as isize);
            let seen = &sheet[row * width + from..][..columns.len()];
            let here = &mut out[y * width..][columns.clone()];
            for (best, cell) in here.iter_mut().zip(seen) {
                *best = pick(*best, *cell);
            }
        }
    }
    out
}
