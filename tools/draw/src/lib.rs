//! Random shapes, calls, books, traces and merges for everything that is compared with the second program.
//! All draws come from a seed, so that a run can be repeated.

#![forbid(unsafe_code)]
#![warn(missing_docs)]

pub mod book;
pub mod calls;
pub mod damage;
pub mod edges;
pub mod grounds;
pub mod merge;
pub mod pace;
mod places;
pub mod random;
pub mod shapes;
pub mod sound;
pub mod tally;
pub mod trace;
pub mod view;
mod wrapped;
