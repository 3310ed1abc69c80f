//! Comparison by running, with the second program on the other side: the bench program on random scripts of its
//! protocol (`bench`), and the static library on books (`books`), on traces and lists of calls (`replays`) and
//! on merges of two days (`merges`). All draws come from a seed. A trial depends on the seed and its number alone,
//! but a script also on how many lines and scripts there are in all.

#![forbid(unsafe_code)]
#![warn(missing_docs)]

pub mod bench;
pub mod books;
pub mod desk;
pub mod difference;
pub mod implementation;
pub mod list;
pub mod merges;
pub mod options;
pub mod quiet;
pub mod replays;
pub mod run;
