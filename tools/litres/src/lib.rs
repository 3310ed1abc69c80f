//! The proved calls over a borrowed slice of words, for Rust.
//!
//! The static library `capi` does all the work; here its C functions get Rust's types. A slice meets
//! the conditions of `include/litres.h`: its words are there, aligned and used by nobody else. A sum, a
//! ground and a count of halvings are returned by value, so they cannot lie within the book. A refusal
//! displays the header's text.
//!
//! ```
//! let (k, n, m, g) = (2, 2, 4, 1);
//! let mut book = vec![0; litres::words(k, n, m, g).unwrap()];
//! litres::make(&mut book, k, n, m, g)?;
//! litres::clock(&mut book, 3)?;
//! litres::delivery(&mut book, 0, 1, 250).unwrap_err(); // 2^4 decilitres at most
//! assert_eq!(litres::delivery(&mut book, 0, 1, 5)?, 1); // one bucket was halved
//! assert_eq!(litres::query(&book, 0, 3)?, 5); // stamps 1, 2 and 3
//! assert_eq!(litres::query(&book, 0, 2)?, 0);
//! # Ok::<(), litres::Refused>(())
//! ```
//!
//! A sum has a ground: the level that gave it, how far it can be off, and why no finer level gave it.
//!
//! ```
//! use litres::Finer;
//! let mut book = vec![0; 90];
//! litres::make(&mut book, 2, 2, 4, 1)?;
//! litres::clock(&mut book, 3)?;
//! for (stamp, volume) in [(0, 3), (3, 1), (1, 1), (1, 1), (2, 2)] {
//!     litres::delivery(&mut book, 0, stamp, volume)?;
//! }
//! let ground = litres::ground(&book, 0, 3)?;
//! assert_eq!((ground.sum, ground.level, ground.limit), (4, 2, 12)); // the true sum is 5
//! assert_eq!(ground.finer, Finer::First(2)); // level 1 keeps stamps from 2 on, and the window opens at 1
//! assert_eq!(litres::ground(&book, 0, 2)?.finer, Finer::LevelZero); // exact
//! assert_eq!(litres::ground(&book, 0, 0)?.finer, Finer::WindowZero);
//! # Ok::<(), litres::Refused>(())
//! ```
//!
//! A trace holds recorded days, whose records are calls. Each is found and replayed on a book:
//!
//! ```
//! let mut book = vec![0; 90];
//! litres::make(&mut book, 2, 2, 4, 1)?;
//! // Two days: an empty one, and one of a clock, a delivery and a question.
//! let trace = [2, 5, 0, 5, 12, 1, 3, 0, 0, 2, 0, 1, 5, 3, 0, 3, 0];
//! assert!(litres::find_day(&trace, 0)?.is_empty());
//! let records = litres::find_day(&trace, 1)?.len() / litres::RECORD_WORDS;
//! let mut answers = vec![0; records * litres::ANSWER_WORDS];
//! litres::replay(&mut book, &trace, 1, &mut answers)?;
//! assert_eq!(answers, [0, 0, 0, 0, 0, 5]); // all accepted, and the sum is 5
//! # Ok::<(), litres::Refused>(())
//! ```
//!
//! Two days become one, in the order of their clocks:
//!
//! ```
//! // One day of each trace: clocks 1 and 3, and clock 2 with a delivery.
//! let first = [1, 3, 8, 1, 1, 0, 0, 1, 3, 0, 0];
//! let second = [1, 3, 8, 1, 2, 0, 0, 2, 0, 1, 5];
//! let mut merged = [0; 16];
//! litres::merge(&first, 0, &second, 0, &mut merged)?;
//! assert_eq!(merged, [1, 1, 0, 0, 1, 2, 0, 0, 2, 0, 1, 5, 1, 3, 0, 0]);
//! # Ok::<(), litres::Refused>(())
//! ```

#![warn(missing_docs)]

mod archive;
mod ground;
mod refused;
#[cfg(test)]
mod tests;

pub use ground::{Finer, Ground};
pub use refused::Refused;

/// The version of the library, `LITRES_VERSION` in `include/litres.h`.
pub const VERSION: &str = env!("CARGO_PKG_VERSION");

/// Most days of a trace.
pub const MAX_DAYS: u32 = 64;
/// Words of a record: its kind, the numbers of its call, zeros.
pub const RECORD_WORDS: usize = 4;
/// Words of a record's answer: the refusal's number or 0, then the sum or 0.
pub const ANSWER_WORDS: usize = 2;
/// The kind of a record that sets the clock.
pub const KIND_CLOCK: u32 = 1;
/// The kind of a record of a delivery.
pub const KIND_DELIVERY: u32 = 2;
/// The kind of a record that asks for a sum.
pub const KIND_QUERY: u32 = 3;

/// How many words a book of this shape needs; nothing where the shape is outside its limits.
pub fn words(k: u32, n: u32, m: u32, g: u32) -> Option<usize> {
    // SAFETY: the function takes four numbers of any value and reaches no memory of the caller's.
    let words = unsafe { archive::litres_words(k, n, m, g) };
    (words != 0).then_some(words)
}

/// Writes an empty book at clock 0, whatever the words were.
pub fn make(book: &mut [u32], k: u32, n: u32, m: u32, g: u32) -> Result<(), Refused> {
    let (words, len) = (book.as_mut_ptr(), book.len());
    // SAFETY: `words` and `len` are of one exclusive slice, which lives through the call; an empty
    // slice's pointer is aligned and not null, and no word behind it is used.
    accepted(unsafe { archive::litres_make(words, len, k, n, m, g) })
}

/// Sets a later or equal clock. Where it enters another interval, all but that one and the one before it
/// are emptied, in every grade.
pub fn clock(book: &mut [u32], clock: u32) -> Result<(), Refused> {
    let (words, len) = (book.as_mut_ptr(), book.len());
    // SAFETY: as for `make`.
    accepted(unsafe { archive::litres_clock(words, len, clock) })
}

/// Records a delivery of so many decilitres of a grade at a tick, and gives the number of its halvings:
/// how many buckets it halved on all levels, at most k * m. A tick 2^k or more behind the clock is late.
pub fn delivery(book: &mut [u32], grade: u32, stamp: u32, volume: u32) -> Result<u32, Refused> {
    let mut halvings = 0;
    let (words, len) = (book.as_mut_ptr(), book.len());
    // SAFETY: as for `make`; `halvings` is a variable of its own, apart from the book.
    let number =
        unsafe { archive::litres_delivery(words, len, grade, stamp, volume, &mut halvings) };
    accepted(number).map(|()| halvings)
}

/// The book's sum for a grade, in decilitres, over the last `window` ticks, of which the clock's is the
/// last; 0 for window 0. `include/litres.h` says how near it is to the true sum, and where it is the true sum.
pub fn query(book: &[u32], grade: u32, window: u32) -> Result<u64, Refused> {
    let mut sum = 0;
    // SAFETY: the pointer and the length are of one slice, shared and so not written by anybody
    // during the call; the function only reads it. `sum` is a variable of its own, apart from it.
    let number =
        unsafe { archive::litres_query(book.as_ptr(), book.len(), grade, window, &mut sum) };
    accepted(number).map(|()| sum)
}

/// Where the sum of [`query`] comes from. It is refused as the query is.
pub fn ground(book: &[u32], grade: u32, window: u32) -> Result<Ground, Refused> {
    let mut numbers = [0; archive::GROUND_LEN];
    let (words, len) = (book.as_ptr(), book.len());
    // SAFETY: as for `query`; `numbers` is an array of its own with as many places as are written.
    let number = unsafe { archive::litres_ground(words, len, grade, window, &mut numbers) };
    accepted(number).map(|()| Ground::of(numbers))
}

/// The words of a day, as that part of the trace; `include/litres.h` has the trace's layout. Days are
/// numbered from 0.
pub fn find_day(trace: &[u32], day: u32) -> Result<&[u32], Refused> {
    let (mut start, mut length) = (0, 0);
    let (words, len) = (trace.as_ptr(), trace.len());
    // SAFETY: `words` and `len` are of one slice, shared and so not written by anybody during the
    // call; the function only reads it. `start` and `length` are two variables apart from it.
    let number = unsafe { archive::litres_day(words, len, day, &mut start, &mut length) };
    accepted(number).map(|()| &trace[start..start + length])
}

/// Performs every record of a day on the book, each as a call of its own, and writes
/// [`ANSWER_WORDS`] words for each. A refused record does not stop the ones after it. Words past the last
/// answer stay. Where the replay as a whole is refused, no record is run.
pub fn replay(
    book: &mut [u32],
    trace: &[u32],
    day: u32,
    answers: &mut [u32],
) -> Result<(), Refused> {
    let (words, len) = (book.as_mut_ptr(), book.len());
    let (read, read_len) = (trace.as_ptr(), trace.len());
    let (written, written_len) = (answers.as_mut_ptr(), answers.len());
    // SAFETY: as for `make` for `book` and `answers`, and as for `find_day` for `trace`; no two of the
    // three overlap, since `book` and `answers` are exclusive.
    accepted(unsafe {
        archive::litres_replay(words, len, read, read_len, day, written, written_len)
    })
}

/// Merges a day of one trace with a day of another, or of the same, and writes the merged day: every record of
/// both, each day's own order kept, and clocks never falling. `include/litres.h` says what a record's clock
/// is. The order of the two days at an equal clock is undecided. `out` must have as many words as both days
/// together, by [`find_day`].
pub fn merge(
    first: &[u32],
    first_day: u32,
    second: &[u32],
    second_day: u32,
    out: &mut [u32],
) -> Result<(), Refused> {
    let (one, one_len) = (first.as_ptr(), first.len());
    let (other, other_len) = (second.as_ptr(), second.len());
    let (written, written_len) = (out.as_mut_ptr(), out.len());
    // SAFETY: as for `find_day` for `first` and `second`, which may overlap each other, and as for `make`
    // for `out`, which overlaps neither, since it is exclusive.
    accepted(unsafe {
        archive::litres_merge(
            one,
            one_len,
            first_day,
            other,
            other_len,
            second_day,
            written,
            written_len,
        )
    })
}

fn accepted(number: u32) -> Result<(), Refused> {
    match number {
        0 => Ok(()),
        number => Err(Refused(number)),
    }
}
