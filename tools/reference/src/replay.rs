//! Finding a day of a trace and replaying it (document 02, request Two).

use crate::calls::{perform, Answer, Call, Reply};
use crate::layout::{NUMBER, SUM};
use crate::refusal::{self, when};
use crate::trace;
use crate::words::write_number;

pub use crate::layout::ANSWER_WORDS;

/// The words of a day, as that part of the trace.
pub fn find_day(trace: &[u32], day: u32) -> Result<&[u32], u32> {
    let days = trace::days(trace).map_err(|_| refusal::TRACE)?;
    let part = days.get(day as usize).ok_or(refusal::DAY)?;
    Ok(&trace[part.clone()])
}

/// Performs every record of a day on a book, each as a call of its own, and writes the answers. A
/// refused record does not stop the ones after it. Refused as a whole, it writes nothing. It gives the
/// replies themselves too, because the words leave out the splits of a delivery.
pub fn replay(
    book: &mut [u32],
    trace: &[u32],
    day: u32,
    answers: &mut [u32],
) -> Result<Vec<Reply>, u32> {
    let calls = calls(trace, day, answers.len())?;
    let replies: Vec<Reply> = calls.into_iter().map(|call| perform(book, call)).collect();
    for (reply, answer) in replies.iter().zip(answers.chunks_mut(ANSWER_WORDS)) {
        answer.copy_from_slice(&answer_words(*reply));
    }
    Ok(replies)
}

/// The calls that a replay with so many answer words consists of; they are also what a ledger is fed.
pub fn calls(trace: &[u32], day: u32, room: usize) -> Result<Vec<Call>, u32> {
    let calls = trace::calls(find_day(trace, day)?);
    when(room < ANSWER_WORDS * calls.len(), refusal::ROOM)?;
    Ok(calls.collect())
}

/// What is written for a record that was answered so.
pub fn answer_words(reply: Reply) -> [u32; ANSWER_WORDS] {
    let mut words = [0; ANSWER_WORDS];
    match reply {
        Ok(Answer::Done | Answer::Splits(_)) => {}
        Ok(Answer::Sum(sum)) => write_number(sum, &mut words[SUM..]),
        Err(number) => words[NUMBER] = number,
    }
    words
}
