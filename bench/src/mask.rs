//! The masks that sheets are filtered under.

use crate::cell::Point;

/// A mask: its name, and its rows, the northmost first, with bit c where it has the point in column c from the left.
#[derive(Clone)]
pub struct Mask {
    pub name: String,
    pub rows: [u32; 31],
}

impl Mask {
    /// The mask of the points (u, v) that are in.
    pub fn new(name: impl Into<String>, is_in: impl Fn(i32, i32) -> bool) -> Mask {
        let mut rows = [0; 31];
        for (row, v) in rows.iter_mut().zip(-15..=15) {
            for (bit, u) in (-15..=15).enumerate() {
                *row |= u32::from(is_in(u, v)) << bit;
            }
        }
        Mask { name: name.into(), rows }
    }

    /// A mask with about every second point, from a linear congruential generator.
    pub fn half_filled() -> Mask {
        let mut seed: u32 = 7;
        let mut rows = [0; 31];
        for row in &mut rows {
            for bit in 0..31 {
                seed = seed.wrapping_mul(1_664_525).wrapping_add(1_013_904_223);
                *row |= (seed >> 31) << bit;
            }
        }
        Mask { name: "half-filled 31 x 31".into(), rows }
    }

    pub fn points(&self) -> Vec<Point> {
        let mut points = Vec::new();
        for (row, v) in self.rows.iter().zip(-15..=15) {
            for (bit, u) in (-15..=15).enumerate() {
                if row >> bit & 1 == 1 {
                    points.push(Point { u, v });
                }
            }
        }
        points
    }

    /// How many chords it has: a chord begins at each point with none to its left.
    pub fn chords(&self) -> usize {
        self.rows.iter().map(|row| (row & !(row << 1)).count_ones() as usize).sum()
    }
}

/// The six masks of the comparison.
pub fn compared() -> Vec<Mask> {
    vec![
        Mask::new("square 31 x 31", |_, _| true),
        Mask::new("disk 31", |u, v| u * u + v * v <= 240),
        Mask::new("letter H 31 x 31", |u, v| u == -15 || u == 15 || v == 0),
        Mask::half_filled(),
        Mask::new("line 1 x 31", |_, v| v == 0),
        Mask::new("cross 3 x 3", |u, v| u.abs() + v.abs() <= 1),
    ]
}
