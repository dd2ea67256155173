//! Parts of the benchmark.

pub mod boost;
pub mod clock;
pub mod columns;
pub mod table;
