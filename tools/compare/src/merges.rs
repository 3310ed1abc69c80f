//! Merges of two days of every kind. Which of several merged days is written is undecided, so an output is
//! judged by the second program and not compared. It is then replayed on a book that is not past its first
//! clock, at once and record by record, and each record has to meet the clock that it has in its own day.

use draw::merge::{book, met, Drawn, BOOKS};
use draw::random::Random;
use draw::shapes;
use draw::tally::Tally;
use reference::calls::Reply;
use reference::layout;
use reference::merge::{judge, merged_clocks, met_clocks, Named};
use reference::protocol::answer;
use reference::refusal;
use reference::replay::{answer_words, ANSWER_WORDS};
use reference::shape::Shape;
use reference::trace::{lay_out, RECORD_WORDS};

use crate::desk::{around, check_numbers, read_again, unlikely, Asked, Desk, MARGIN};
use crate::difference::{check_words, Difference, Of, What};
use crate::implementation::{Implementation, Lent};
use crate::run::{Comparison, Summary};

/// The comparison on merges.
pub const MERGES: Comparison = Comparison { name: "merges", usual: 48_000, summary, trial };

/// A run of so many merges must show every kind of merge, of book and of answer.
const MERGES_FOR_ALL: u64 = 4_000;
/// Longer books would leave time for few merges only.
const LONGEST: usize = 600;

/// Where the clock of a book stands on which a merged day is replayed.
const PLACES: [&str; 3] = ["at the first clock", "before it", "without a record"];
/// What a record of a merged day can be refused for on a sound book. A clock never is.
const RECORDS: [u32; 6] = [
    refusal::GRADE,
    refusal::VOLUME,
    refusal::WINDOW,
    refusal::AHEAD,
    refusal::LATE,
    refusal::FULL,
];

fn summary() -> Summary {
    const ALL: u64 = MERGES_FOR_ALL;
    let refused = refusal::MERGES.map(|number| answer(Err(number)));
    let merges = ["merged".to_string()].into_iter().chain(refused);
    Summary::new([
        ("merges", Tally::new(merges, ALL)),
        ("days and rooms", Tally::new(met::all(), 2 * ALL)),
        ("books", Tally::new(BOOKS, ALL / 4)),
        ("their clocks", Tally::new(PLACES, ALL / 4)),
        ("records", Tally::of_answers(RECORDS.into_iter(), &[], ALL)),
    ])
}

fn trial(
    implementation: &dyn Implementation,
    random: &mut Random,
    _: u64,
    summary: &mut Summary,
) -> Result<(), Difference> {
    let shape = shapes::draw_short(random, LONGEST);
    let drawn = Drawn::draw(random, shape);
    let [first, second] = drawn.named();
    merge_and_replay(implementation, random, shape, &drawn, summary).map_err(|difference| {
        let told = |Named { trace, day }| format!("day {day} of {trace:?}");
        let (first, second, room) = (told(first), told(second), drawn.room);
        difference.of(format!("{first}\n{second}\ninto {room} words"))
    })
}

fn merge_and_replay(
    implementation: &dyn Implementation,
    random: &mut Random,
    shape: Shape,
    drawn: &Drawn,
    summary: &mut Summary,
) -> Result<(), Difference> {
    let outcome = merge(implementation, random, drawn)?;
    let number = outcome.as_ref().err();
    let kind = number.map_or("merged".to_string(), |number| answer(Err(*number)));
    summary.add("merges", &kind);
    summary.add_all("days and rooms", met::kinds(drawn.named(), drawn.room));
    let Ok(merged) = outcome else {
        return Ok(());
    };
    let first = merged.clocks.first().copied();
    let (kind, book) = book(random, shape, first.unwrap_or(Shape::CLOCK_MAX));
    let replies = replay(implementation, random, &book, &merged);
    let about = || format!("merged day {:?} on {book:?}", merged.words);
    let replies = replies.map_err(|difference| difference.of(about()))?;
    summary.add("books", kind);
    let place = match first {
        Some(first) if first == book[layout::CLOCK] => PLACES[0],
        Some(_) => PLACES[1],
        None => PLACES[2],
    };
    summary.add("their clocks", place);
    for reply in replies {
        summary.tally("records").add_answer(&answer(reply));
    }
    Ok(())
}

/// A merged day.
struct Merged {
    words: Vec<u32>,
    /// The clock of each record in its own day.
    clocks: Vec<u32>,
}

/// Has the implementation merge and judges what it did. It gives the merged day, or the number under which
/// the merge was rightly refused.
fn merge(
    implementation: &dyn Implementation,
    random: &mut Random,
    drawn: &Drawn,
) -> Result<Result<Merged, u32>, Difference> {
    let traces = drawn.traces.iter().map(|words| around(random, words));
    let traces: Vec<Vec<u32>> = traces.collect();
    let kept = traces.clone();
    let parts = traces.iter();
    let parts = parts.map(|words| &words[MARGIN..words.len() - MARGIN]);
    let named = drawn.named_in(&parts.collect::<Vec<_>>());
    let before = unlikely(random, drawn.room);
    let mut left = before.clone();
    let output = MARGIN..MARGIN + drawn.room;
    let found = implementation.merge(named, &mut left[output.clone()]);
    let judged = judge(named, drawn.room);
    check_numbers(judged.err(), found.err())?;
    let words = left[output.clone()].to_vec();
    let mut allowed = before.clone();
    if judged.is_ok() {
        allowed[output].copy_from_slice(&words);
    }
    check_words(What::Word(Of::Output), [&before, &allowed, &left], MARGIN)?;
    for (kept, left) in kept.iter().zip(&traces) {
        let words = [&kept[..], kept, read_again(left)];
        check_words(What::Word(Of::Trace), words, MARGIN)?;
    }
    match judged {
        Err(number) => Ok(Err(number)),
        Ok(days) => match merged_clocks(days, &words) {
            Some(clocks) => Ok(Ok(Merged { words, clocks })),
            None => Err(Difference::new(What::Merged, format!("no merged day: {words:?}"))),
        },
    }
}

/// Replays a merged day as the only one of a trace, on a sound book that is not past its first clock: at once,
/// beside the second program, then record by record to see the clock that each of them meets. It
/// gives the answers.
fn replay(
    implementation: &dyn Implementation,
    random: &mut Random,
    book: &[u32],
    merged: &Merged,
) -> Result<Vec<Reply>, Difference> {
    let Merged { words, clocks } = merged;
    let met = met_clocks(&mut book.to_vec(), words);
    assert_eq!(met, *clocks, "the second program: {words:?} on {book:?}");
    let mut desk = Desk::new(implementation, random, book);
    let room = ANSWER_WORDS * clocks.len();
    let answered = desk.ask(Asked { trace: &lay_out(&[words]), day: 0, lent: book.len(), room })?;
    let answered = answered.expect("a trace with a day and room for its answers");
    let replies: Vec<Reply> = answered.iter().map(|answered| answered.reply).collect();
    let (left, answers) = record_by_record(implementation, book, merged)?;
    let expected: Vec<u32> = replies.iter().copied().flat_map(answer_words).collect();
    check_words(What::Apart(Of::Book), [book, desk.book(), &left], 0)?;
    let words = [&vec![0; room][..], &expected, &answers];
    check_words(What::Apart(Of::Answers), words, 0)?;
    Ok(replies)
}

/// Replays each record as a trace of its own, after which the book shows the clock that it met. It gives the
/// words that are left of the book, and the answers.
fn record_by_record(
    implementation: &dyn Implementation,
    book: &[u32],
    merged: &Merged,
) -> Result<(Vec<u32>, Vec<u32>), Difference> {
    let (mut left, mut answers) = (book.to_vec(), Vec::new());
    let records = merged.words.chunks(RECORD_WORDS).zip(&merged.clocks);
    for (number, (record, expected)) in records.enumerate() {
        let mut answer = [0; ANSWER_WORDS];
        let lent =
            Lent { book: &mut left, trace: &lay_out(&[record]), day: 0, answers: &mut answer };
        let found = implementation.replay(lent).map(|()| left[layout::CLOCK]);
        if found != Ok(*expected) {
            let told = format!("record {number} meets {found:?}, its own clock is {expected}");
            return Err(Difference::new(What::Clock, told));
        }
        answers.extend(answer);
    }
    Ok((left, answers))
}
