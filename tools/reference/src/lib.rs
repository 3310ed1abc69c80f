//! A second implementation of document 01, as plain as it can be. Windows and lateness are those of
//! document 02, request One; request Two adds traces and their replay, request Four the count of a
//! delivery's splits, request Five what a merge of two days may be, request Six the ground of a sum,
//! request Seven where a sum must be exact.
//!
//! It shares nothing with the proved code but the documents. A call decodes the words into vectors
//! of buckets, inserts decilitre by decilitre, and encodes the vectors again; clarity comes before
//! speed everywhere.

#![forbid(unsafe_code)]
#![warn(missing_docs)]

pub mod calls;
pub mod ground;
pub mod histogram;
pub mod layout;
pub mod ledger;
pub mod merge;
pub mod protocol;
pub mod refusal;
pub mod replay;
pub mod shape;
pub mod soundness;
pub mod trace;
pub mod window;
pub mod words;
