//! In what the two sides differ.

use std::fmt::Display;

use reference::calls::{Answer, Reply};
use reference::protocol;

/// The first thing that differs.
#[derive(Clone, Debug, PartialEq, Eq)]
pub struct Difference {
    /// What it is.
    pub what: What,
    /// All that is known of it, in words.
    pub told: String,
    /// A script that shows it, for a file of its own.
    pub script: Option<Vec<u8>>,
}

/// What differs. Each is a test of its own.
#[derive(Clone, Copy, Debug, PartialEq, Eq)]
pub enum What {
    /// A line of the bench program's output.
    Line,
    /// The number, the sum or the splits that a call answers.
    Answer,
    /// The ground of a question.
    Ground,
    /// The part of a trace that is a day.
    Part,
    /// The number of a replay or of a merge, 0 where it is accepted.
    Number,
    /// A word that a call, a replay or a merge left, or one around those that it was lent.
    Word(Of),
    /// A word that the implementation's own calls leave, one by one, where its replay left another.
    Apart(Of),
    /// What one of these calls answers and a replay's words leave out.
    Splits,
    /// The ledger answers under another number, or with a sum for which the book's is not within the bound.
    Ledger,
    /// A ground is not that of its question's answer, or the ledger's sum is further from it than its limit.
    Limit,
    /// A sum is not the ledger's, although that is promised.
    Inexact,
    /// An output is no merged day of the two.
    Merged,
    /// A record of a merged day does not meet the clock that it has in its own day.
    Clock,
}

/// Whose word it is.
#[derive(Clone, Copy, Debug, PartialEq, Eq)]
pub enum Of {
    /// The book's.
    Book,
    /// The answers'.
    Answers,
    /// A trace's.
    Trace,
    /// The output's of a merge.
    Output,
}

impl Difference {
    /// This differs.
    pub fn new(what: What, told: impl Display) -> Difference {
        Difference { what, told: told.to_string(), script: None }
    }

    /// The same, with what it is about before it.
    pub fn of(self, about: impl Display) -> Difference {
        Difference { told: format!("{about}\n{}", self.told), ..self }
    }
}

/// Compares words that were equal before; places count from `start`.
pub fn check_words(
    what: What,
    [before, expected, found]: [&[u32]; 3],
    start: usize,
) -> Result<(), Difference> {
    if expected == found {
        return Ok(());
    }
    let mut pairs = expected.iter().zip(found);
    let place = pairs.position(|(expected, found)| expected != found);
    let place = place.expect("as many words on both sides");
    let [before, expected, found] = [before, expected, found].map(|words| words[place]);
    let place = place as i64 - start as i64;
    let told = format!("word {place} is {found}, expected {expected}, before {before}");
    Err(Difference::new(what, told))
}

/// An answer as the bench program prints it, but with the splits of a delivery.
pub fn told(reply: Reply) -> String {
    let line = protocol::answer(reply);
    match reply {
        Ok(Answer::Splits(splits)) => format!("{line} (splits: {splits})"),
        _ => line,
    }
}
