//! Best times of several calls that are made in turn.

use crate::columns::{Blocks, Call, Time};
use std::hint::black_box;
use std::time::Instant;

/// The best time of each call, by name, in microseconds a block. In each pass the
/// calls are made one after the other, each over all blocks; a call takes part
/// in so many passes.
pub fn best_times(boards: &Blocks, calls: &[(&'static str, usize, Call)]) -> Vec<Time> {
    let mut buffer = vec![0; 2 * boards.n];
    let mut times: Vec<Time> = calls
        .iter()
        .map(|&(name, ..)| (name, f64::INFINITY))
        .collect();
    let passes = calls.iter().map(|&(_, passes, _)| passes).max();
    for pass in 0..passes.unwrap_or(0) {
        for (&(_, passes, call), best) in calls.iter().zip(&mut times) {
            if pass < passes {
                best.1 = best.1.min(time(boards, call, &mut buffer));
            }
        }
    }
    times
}

/// One pass of a call over all blocks.
fn time(boards: &Blocks, call: Call, buffer: &mut [u16]) -> f64 {
    let start = Instant::now();
    for block in &boards.blocks {
        call(black_box(block), boards.n, buffer);
    }
    start.elapsed().as_secs_f64() * 1e6 / boards.blocks.len() as f64
}
