//! Tests of the wiring-sheet unit from outside.
//!
//! Two implementations of the paper stand here beside the unit's C library:
//! [`paper`] does literally what the rules say, [`linear`] is what a plain
//! programmer would write for speed. Neither shares anything with the unit.

pub mod board;
pub mod boards;
pub mod cases;
pub mod compare;
pub mod contours;
pub mod damage;
pub mod ffi;
pub mod fits;
pub mod geometry;
pub mod layout;
pub mod linear;
pub mod paper;
pub mod parts;
pub mod programs;
pub mod refusals;
pub mod reply;
pub mod rng;
pub mod runs;
pub mod tally;
pub mod text;
pub mod trial;
pub mod words;
