//! Strips and their listings, straight from the definitions in docs/.
//!
//! This library shares no code with the proved crates. A filtered cell is the pick over all points of the mask whose
//! place has a cell, one by one; chords and length lists are made only where a formula asks for them.

pub mod cases;
pub mod cell;
pub mod filter;
pub mod fixed;
pub mod limits;
pub mod listing;
pub mod make;
pub mod mask;
pub mod sheet;
pub mod strip;
