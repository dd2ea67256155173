//! The columns of the tables: what is measured, under which name.

use crate::boost::Boost;
use crate::clock::best_times;
use outside::{ffi, linear, paper};
use std::hint::black_box;

/// Passes over the boards, of which the best counts.
pub const PASSES: usize = 100;

/// Passes of the literal implementation, which is far slower.
const PAPER_PASSES: usize = 10;

/// A call for a block of n posts, with a buffer of 2n entries.
pub type Call = fn(block: &[u8], n: usize, buffer: &mut [u16]);

/// How a column gets its time.
#[derive(Clone, Copy)]
pub enum How {
    Called(Call),
    /// By Boost's program, if it is there.
    ByBoost,
    /// It has none in this table.
    Not,
}

pub struct Column {
    pub name: &'static str,
    pub about: &'static str,
    pub passes: usize,
    pub check: How,
    pub sheet: How,
}

/// All columns; one more is one more here.
pub const COLUMNS: [Column; 4] = [
    Column {
        name: "unit",
        about: "the unit through its C library",
        passes: PASSES,
        check: How::Called(|block, _, _| ended(ffi::check(block))),
        sheet: How::Called(|block, n, buffer| ended(ffi::sheet(block, n, buffer))),
    },
    Column {
        name: "linear",
        about: "plain Rust, positions by name, offsets added up at the end",
        passes: PASSES,
        check: How::Called(|block, _, _| ended(linear::check(block))),
        sheet: How::Called(|block, n, buffer| ended(linear::sheet(block, n, buffer))),
    },
    Column {
        name: "paper",
        about: "the paper done literally, whole groups moved at each stage",
        passes: PAPER_PASSES,
        check: How::Called(|block, _, _| ended(paper::check(block))),
        sheet: How::Called(|block, n, buffer| ended(paper::sheet(block, n, buffer))),
    },
    Column {
        name: "boost",
        about:
            "its Chrobak-Payne drawing alone, of a graph, rings and order already in memory;\n  \
                nothing is read or checked. Its points must be those of the unit",
        passes: PASSES,
        check: How::Not,
        sheet: How::ByBoost,
    },
];

/// Have the reply made, whoever might find that it is not used.
fn ended<T>(reply: T) {
    black_box(reply);
}

/// Columns of which one is divided by another, and the digits that are printed.
pub const RATIOS: [(&str, &str, usize); 2] = [("unit", "linear", 2), ("unit", "paper", 3)];

/// The blocks of one line of a table, all of n posts.
pub struct Blocks {
    pub n: usize,
    pub blocks: Vec<Vec<u8>>,
}

/// A time, in microseconds a call, under its column's name.
pub type Time = (&'static str, f64);

/// The times of all columns that have one in a table.
pub fn measure(how: fn(&Column) -> How, boards: &Blocks, boost: Option<&Boost>) -> Vec<Time> {
    let mut calls = Vec::new();
    for column in &COLUMNS {
        if let How::Called(call) = how(column) {
            calls.push((column.name, column.passes, call));
        }
    }
    let mut times = best_times(boards, &calls);
    for column in &COLUMNS {
        if let (How::ByBoost, Some(boost)) = (how(column), boost) {
            let time = boost.draw(&boards.blocks, column.passes, points(boards));
            times.push((column.name, time));
        }
    }
    times
}

/// The entries of the last sheets of all blocks, as the unit writes them.
fn points(boards: &Blocks) -> impl Iterator<Item = u16> + '_ {
    let mut buffer = vec![0; 2 * boards.n];
    boards.blocks.iter().flat_map(move |block| {
        ffi::sheet(block, boards.n, &mut buffer);
        buffer.clone()
    })
}
