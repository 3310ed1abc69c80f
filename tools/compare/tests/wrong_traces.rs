//! A usual run finds wrong replays and merges: one for each thing that is compared, and kinds of mistakes that no
//! edit of the proofs shows. A changed word of a trace is not among them, since safe Rust cannot change it.

mod stand_in;

use std::ops::Range;

use compare::difference::{Of, What};
use compare::implementation::{Implementation, Lent};
use compare::merges::MERGES;
use compare::replays::REPLAYS;
use reference::calls::{perform, Answer, Call, Reply};
use reference::merge::{judge, merge, Named};
use reference::replay::{calls, find_day, replay, ANSWER_WORDS};
use reference::trace::{self, RECORD_WORDS};
use stand_in::{assert_found, Performing};

/// The second program, but this replays.
struct Replaying<F>(F);

type Replay = fn(Lent) -> Result<(), u32>;

impl<F: Fn(Lent) -> Result<(), u32>> Implementation for Replaying<F> {
    fn replay(&self, lent: Lent) -> Result<(), u32> {
        (self.0)(lent)
    }
}

/// The second program, but this merges.
struct Merging<F>(F);

impl<F: Fn([Named; 2], &mut [u32]) -> Result<(), u32>> Implementation for Merging<F> {
    fn merge(&self, named: [Named; 2], output: &mut [u32]) -> Result<(), u32> {
        (self.0)(named, output)
    }
}

#[test]
fn a_copy_of_the_day() {
    struct Copying;
    impl Implementation for Copying {
        fn find_day<'t>(&self, trace: &'t [u32], day: u32) -> Result<&'t [u32], u32> {
            Ok(find_day(trace, day)?.to_vec().leak())
        }
    }
    assert_found(&REPLAYS, "a copy", &Copying, What::Part);
}

#[test]
fn wrong_replays() {
    type OfCalls = fn(Lent, Vec<Call>) -> Result<(), u32>;
    let stand_ins: [(&str, What, OfCalls); 4] = [
        ("a volume of 0 in a trace", What::Number, |lent, calls| {
            let is_none = |call: &Call| matches!(call, Call::Delivery { volume: 0, .. });
            if calls.iter().any(is_none) {
                return Err(13);
            }
            lent.by(replay).map(drop)
        }),
        ("a bad book refuses all", What::Number, |lent, calls| {
            let mut book = lent.book.to_vec();
            let refused = calls.iter().find_map(|call| perform(&mut book, *call).err());
            let replayed = lent.by(replay).map(drop);
            refused.filter(|number| *number == 7).map_or(replayed, Err)
        }),
        ("all or nothing", What::Word(Of::Book), |lent, calls| {
            let before = lent.book.to_vec();
            replay(lent.book, lent.trace, lent.day, lent.answers)?;
            let mut numbers = lent.answers.iter().step_by(ANSWER_WORDS).take(calls.len());
            if numbers.any(|number| *number != 0) {
                lent.book.copy_from_slice(&before);
            }
            Ok(())
        }),
        ("room past the answers", What::Word(Of::Answers), |lent, _| {
            lent.answers.fill(0);
            lent.by(replay).map(drop)
        }),
    ];
    for (name, what, stand_in) in stand_ins {
        let replaying = Replaying(|lent: Lent| {
            let calls = calls(lent.trace, lent.day, lent.answers.len())?;
            stand_in(lent, calls)
        });
        assert_found(&REPLAYS, name, &replaying, what);
    }
}

/// What a refused replay leaves, and which words of a trace are looked at.
#[test]
fn wrong_refusals_of_a_replay() {
    let stand_ins: [(&str, What, Replay); 4] = [
        ("an answer is written", What::Word(Of::Answers), |lent| {
            lent.by(|book, trace, day, answers| {
                let replayed = replay(book, trace, day, answers).map(drop);
                if let (Err(_), Some(first)) = (replayed, answers.first_mut()) {
                    *first = 0;
                }
                replayed
            })
        }),
        ("the book is written", What::Word(Of::Book), |lent| {
            lent.by(|book, trace, day, answers| {
                let replayed = replay(book, trace, day, answers).map(drop);
                if let (Err(_), Some(last)) = (replayed, book.last_mut()) {
                    *last ^= 1;
                }
                replayed
            })
        }),
        ("records of the named day alone", What::Number, |lent| {
            let sound = |part: &Range<usize>| {
                let mut records = lent.trace[part.clone()].chunks(RECORD_WORDS);
                records.all(|record| trace::call(record).is_ok())
            };
            let days = trace::parts(lent.trace).unwrap_or_default();
            let is_sound = days.get(lent.day as usize).is_some_and(sound);
            let replayed = lent.by(replay).map(drop);
            replayed.or_else(|number| if number == 13 && is_sound { Ok(()) } else { Err(number) })
        }),
        ("kinds modulo 2^8", What::Number, |lent| {
            let mut trace = lent.trace.to_vec();
            for part in trace::parts(lent.trace).unwrap_or_default() {
                part.step_by(RECORD_WORDS).for_each(|kind| trace[kind] %= 256);
            }
            replay(lent.book, &trace, lent.day, lent.answers).map(drop)
        }),
    ];
    for (name, what, stand_in) in stand_ins {
        assert_found(&REPLAYS, name, &Replaying(stand_in), what);
    }
}

/// A call by itself is compared in lists, and after a replay on which both sides agree. A replay's words do not
/// tell the splits, so only the separate calls can show them.
#[test]
fn separate_calls_that_differ() {
    type Perform = fn(&mut [u32], Call) -> Reply;
    let stand_ins: [(What, What, Perform); 3] = [
        (What::Apart(Of::Answers), What::Answer, |book, call| match perform(book, call)? {
            Answer::Sum(sum) => Ok(Answer::Sum(sum + 1)),
            answer => Ok(answer),
        }),
        (What::Splits, What::Answer, |book, call| match perform(book, call)? {
            Answer::Splits(_) => Ok(Answer::Splits(0)),
            answer => Ok(answer),
        }),
        (What::Apart(Of::Book), What::Word(Of::Book), |book, call| {
            let answer = perform(book, call)?;
            if let (Answer::Splits(_), Some(last)) = (answer, book.last_mut()) {
                *last ^= 1;
            }
            Ok(answer)
        }),
    ];
    for (after_replay, in_list, stand_in) in stand_ins {
        assert_found(&REPLAYS, "after a replay", &Performing(stand_in), after_replay);
        assert_found(&REPLAYS, "in a list", &Performing(stand_in), in_list);
    }
}

/// At an equal clock any order of the two days is right.
#[test]
fn the_second_day_first() {
    let exchanged = Merging(|[first, second]: [Named; 2], output: &mut [u32]| {
        judge([first, second], output.len())?;
        merge([second, first], output)
    });
    let summary = MERGES.run(&exchanged, 2, 0..8_000).expect("no difference");
    assert_eq!(summary.faults(false), Vec::<String>::new());
}

#[test]
fn wrong_merges() {
    type Merge = fn([Named; 2], &mut [u32]) -> Result<(), u32>;
    let stand_ins: [(&str, What, Merge); 3] = [
        ("an output that is too long", What::Number, |named, output| {
            merge(named, output).or_else(|number| if number == 17 { Ok(()) } else { Err(number) })
        }),
        ("one after the other", What::Merged, |named, output| {
            output.copy_from_slice(&judge(named, output.len())?.concat());
            Ok(())
        }),
        ("a refused merge that writes", What::Word(Of::Output), |named, output| {
            let merged = merge(named, output);
            if let (Err(_), Some(first)) = (merged, output.first_mut()) {
                *first = 0;
            }
            merged
        }),
    ];
    for (name, what, stand_in) in stand_ins {
        assert_found(&MERGES, name, &Merging(stand_in), what);
    }
}

/// A merged day is replayed rightly at once, but not record by record.
#[test]
fn wrong_records_of_a_merged_day() {
    let stand_ins: [(&str, What, Replay); 2] = [
        ("the book stays as it was", What::Clock, |lent| {
            let mut copy = lent.book.to_vec();
            replay(&mut copy, lent.trace, lent.day, lent.answers).map(drop)
        }),
        ("another word changes", What::Apart(Of::Book), |lent| {
            lent.by(|book, trace, day, answers| {
                let replayed = replay(book, trace, day, answers).map(drop);
                book.last_mut().into_iter().for_each(|last| *last ^= 1);
                replayed
            })
        }),
    ];
    for (name, what, stand_in) in stand_ins {
        let replaying = Replaying(|lent: Lent| {
            let records = calls(lent.trace, lent.day, lent.answers.len())?.len();
            if records == 1 {
                return stand_in(lent);
            }
            lent.by(replay).map(drop)
        });
        assert_found(&MERGES, name, &replaying, what);
    }
}
