//! A second solver, written from the product's paper alone: what the program `second` and the run of damaged files in tests/fuzz share.

pub mod ask;
mod damage;
pub mod explain;
pub mod file;
pub mod fits;
mod hand;
pub mod lines;
pub mod make;
pub mod paper;
pub mod random;
mod search;
