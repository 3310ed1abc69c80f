//! Finding a day and replaying it: the example, the refusals and their order, and what is written.

mod books;

use books::{assert_sums, feed};
use draw::book::Book;
use draw::random::Random;
use draw::shapes;
use draw::trace::{day, records, room, Drawn, EXAMPLE};
use reference::calls::{perform, Reply};
use reference::replay::{answer_words, calls, find_day, replay, ANSWER_WORDS};
use reference::trace::{lay_out, Record};

fn made() -> Vec<u32> {
    books::made(shapes::EXAMPLE)
}

#[test]
fn the_example() {
    let mut book = made();
    let mut answers = [7; 11];
    replay(&mut book, &EXAMPLE, 1, &mut answers).unwrap();
    assert_eq!(answers, [0, 0, 0, 0, 0, 0, 0, 0, 0, 1, 7]);
    let mut expected = made();
    feed(&mut expected, 3, &[(0, 3), (3, 1), (1, 1)]);
    assert_sums(&expected, &[(2, 1)]);
    assert_eq!(book, expected);
}

#[test]
fn a_day_is_a_part_of_the_trace() {
    let found = find_day(&EXAMPLE, 1).unwrap();
    assert!(std::ptr::eq(found, &EXAMPLE[5..]));
    let empty = find_day(&EXAMPLE, 0).unwrap();
    assert!(std::ptr::eq(empty, &EXAMPLE[5..5]));
    for day in [2, 3, 64, u32::MAX] {
        assert_eq!(find_day(&EXAMPLE, day), Err(14));
    }
}

#[test]
fn no_traces() {
    let none: [&[u32]; 5] = [&[], &[0, 0], &[65], &[1, 3, 4, 3, 0, 2, 1], &[1, 3, 4, 4, 0, 0, 0]];
    for trace in none {
        assert_eq!(find_day(trace, 0), Err(13), "{trace:?}");
    }
    assert_eq!(find_day(&[0], 0), Err(14));
}

#[test]
fn refused_in_order_and_nothing_written() {
    let mut broken = EXAMPLE;
    broken[24] = 1;
    let cases = [
        (&broken, 1, 10, 13),
        (&broken, 0, 10, 13),
        (&broken, 2, 10, 13),
        (&broken, 2, 0, 13),
        (&EXAMPLE, 2, 10, 14),
        (&EXAMPLE, 2, 0, 14),
        (&EXAMPLE, 1, 0, 15),
        (&EXAMPLE, 1, 5, 15),
        (&EXAMPLE, 1, 9, 15),
    ];
    for (trace, day, room, number) in cases {
        let (mut book, mut answers) = (made(), vec![7; room]);
        let reply = replay(&mut book, trace, day, &mut answers);
        assert_eq!(reply, Err(number), "day {day}, {room} words");
        assert_eq!((book, answers), (made(), vec![7; room]));
        assert_eq!(calls(trace, day, room), Err(number));
    }
}

#[test]
fn an_empty_day_needs_no_room() {
    for room in [0, 1, 2] {
        let (mut book, mut answers) = (made(), vec![7; room]);
        assert_eq!(replay(&mut book, &EXAMPLE, 0, &mut answers), Ok(vec![]));
        assert_eq!((book, answers), (made(), vec![7; room]));
    }
}

/// Bad numbers in records are no fault of the trace, and the records after them are run.
#[test]
fn a_refused_record_does_not_stop_the_replay() {
    let records: [Record; 9] = [
        [1, 3, 0, 0],
        [2, 9, 0, 1],
        [2, 0, 0, 0],
        [2, 0, 4, 1],
        [1, 2, 0, 0],
        [2, 0, 2, 17],
        [1, u32::MAX, 0, 0],
        [3, 0, 5, 0],
        [2, 0, 2, 16],
    ];
    let trace = lay_out(&[records.concat()]);
    let (mut book, mut answers) = (made(), [7; 18]);
    replay(&mut book, &trace, 0, &mut answers).unwrap();
    let numbers: Vec<u32> = answers.iter().step_by(ANSWER_WORDS).copied().collect();
    assert_eq!(numbers, [0, 3, 4, 8, 10, 12, 6, 5, 0]);
    assert!(answers.iter().skip(1).step_by(2).all(|sum| *sum == 0));
    assert_sums(&book, &[(2, 16)]);
}

/// Each record is answered as it would be by itself, on a book that no call takes.
#[test]
fn a_short_or_damaged_book_refuses_each_record() {
    let mut head = made();
    head[7] = 1;
    let mut block = made();
    block[8] = 1;
    let books = [
        (vec![], [2; 5]),
        (made()[..7].to_vec(), [2; 5]),
        (made()[..89].to_vec(), [2; 5]),
        (head, [7; 5]),
        // The clock stays at 0, and a stamp ahead of it is refused before the block is looked at.
        (block, [11, 11, 8, 8, 11]),
    ];
    for (book, numbers) in books {
        let (mut words, mut answers) = (book.clone(), [7; 10]);
        replay(&mut words, &EXAMPLE, 1, &mut answers).unwrap();
        assert_eq!(answers, numbers.map(|number| [number, 0]).concat()[..]);
        assert_eq!(words, book);
    }
}

/// On books and traces of every kind a replay is its calls, one after another. So what ledger.rs and quiet.rs
/// find of calls holds of replays.
#[test]
fn as_separate_calls() {
    let random = &mut Random::new(1);
    let mut met = [0; 3];
    for index in 0..6_000 {
        let Book { shape, words, .. } = Book::draw(random, index);
        if words.len() > 1_000 {
            continue;
        }
        let trace = Drawn::draw(random, shape, &words).words;
        let day = day(random, trace.first().copied().unwrap_or(0));
        let room = room(random, records(&trace, day));
        let (mut book, mut answers) = (words.clone(), vec![7; room]);
        let found = replay(&mut book, &trace, day, &mut answers);
        let (mut apart, mut written) = (words, Vec::new());
        let expected = calls(&trace, day, room).map(|calls| -> Vec<Reply> {
            let each = calls.into_iter().map(|call| perform(&mut apart, call));
            each.collect()
        });
        for reply in expected.iter().flatten() {
            written.extend(answer_words(*reply));
            met[usize::from(reply.is_ok())] += 1;
        }
        written.resize(room, 7);
        met[2] += usize::from(expected.is_err());
        assert_eq!(found, expected, "day {day} of {trace:?}");
        assert_eq!((book, answers), (apart, written), "day {day} of {trace:?}");
    }
    assert!(met.iter().all(|count| *count > 1_000), "{met:?}");
}
