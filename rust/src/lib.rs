//! Advises board makers on setup registers: given the words of a chip's registers, the bits that the board has fixed and the rules between
//! them, it gives the first settings in word order, or says that there are none and names conflicting rules.
//!
//! The calls are those of the proved library libsievecrest.a, which also decides what is refused. This crate adds types, lends memory of
//! the right lengths, and checks nothing that the library checks.
//!
//! # Example
//!
//! Two fields of two bits add up to 3, and the second is at most the first:
//!
//! ```
//! use sievecrest::{Caused, Problem, Rule, Solved, Tightened, Word};
//!
//! let mut board = Problem {
//!     words: vec![Word::open(2), Word::open(2), Word::fixed(2, 3)],
//!     rules: vec![Rule::add(2, 0, 1), Rule::ule(1, 0)],
//!     limit: 100,
//! };
//! assert_eq!(board.solve()?, Solved::Found { settings: vec![2, 1, 3], count: 2 });
//!
//! // The board ties bit 1 of word 0 low, and word 1 is left without a value: the two rules conflict.
//! board.words[0] = Word::bounds(2, 0, 1);
//! assert_eq!(board.tighten()?, Tightened::Conflict);
//! assert_eq!(board.solve()?, Solved::None { count: 0 });
//! assert_eq!(board.cause()?, Caused::Cause { rules: vec![0, 1], count: 2 });
//!
//! // A rule that names word 7, which is not there, is refused by its place.
//! board.rules.push(Rule::not(7, 0));
//! let refusal = board.check().unwrap_err();
//! assert_eq!((refusal.name(), refusal.place), ("FIELD", 2));
//! # Ok::<(), sievecrest::Refusal>(())
//! ```
//!
//! # Stack
//!
//! The search of [`Problem::solve`], [`Problem::cause`] and [`advise`] calls itself once for each level of guesses, of which there are at
//! most 2,048. A stack of one mebibyte was enough on the boards measured, the deepest of which took about a fifth of it; Rust's own default
//! for a thread is two. A stack that is too small ends the process, as with any recursion.
//!
//! # Panics
//!
//! A call panics where the library returns what it cannot return by this crate's [`numbers`]: the two were not built from the same sources,
//! and the message says so. Nothing else panics, whatever a problem or a file holds.

#![deny(missing_docs)]
#![deny(unsafe_code)]
#![deny(unsafe_op_in_unsafe_fn)]

mod answers;
mod decode;
pub mod numbers;
mod problem;
#[allow(unsafe_code)]
mod raw;
mod refusal;
mod rule;
mod word;

pub use answers::{Caused, Explained, FixedBit, Place, Solved, Tightened};
pub use problem::{advise, Problem};
pub use refusal::Refusal;
pub use rule::{Kind, Rule};
pub use word::Word;

/// The example of the README is run as one of this crate's.
#[cfg(doctest)]
#[doc = include_str!("../README.md")]
struct Readme;
