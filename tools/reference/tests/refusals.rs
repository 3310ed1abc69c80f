//! The order of refusals, one call after another with fewer and fewer reasons, and the exact edge
//! of each condition. A ground is refused as the query of the same numbers.

mod books;

use books::{assert_sums, delivery, made};
use draw::calls::call_of;
use draw::shapes::{within, Numbers};
use reference::calls::{clock, deliver, perform, query, Answer, Call};
use reference::ground::ground;
use reference::layout::BOOK;
use reference::shape::Shape;

const NUMBERS: Numbers = [2, 2, 4, 2];

/// Two grades at clock 8; grade 1 is full in the current interval.
fn book() -> Vec<u32> {
    let mut words = made(NUMBERS);
    clock(&mut words, 8).unwrap();
    deliver(&mut words, 1, 8, 16).unwrap();
    words
}

/// The same with a total above all limits in grade 1, in the half that the calls do not touch.
fn unsound() -> Vec<u32> {
    let mut words = book();
    words[within(NUMBERS).block(1)][BOOK.total(1).start] = u32::MAX;
    words
}

fn bad_head(mut words: Vec<u32>) -> Vec<u32> {
    words[7] = 1;
    words
}

fn cut(mut words: Vec<u32>, length: usize) -> Vec<u32> {
    words.truncate(length);
    words
}

fn longer(mut words: Vec<u32>) -> Vec<u32> {
    words.push(0);
    words
}

fn assert_refused(mut words: Vec<u32>, call: Call, number: u32) {
    let before = words.clone();
    assert_eq!(perform(&mut words, call), Err(number), "{call:?}");
    assert_eq!(words, before, "{call:?}");
    if let Call::Query { grade, window } = call {
        assert_eq!(ground(&words, grade, window), Err(number), "{call:?}");
    }
}

/// Lengths and heads, for each call that reads a head.
fn assert_opening(call: Call) {
    assert_refused(vec![], call, 2);
    assert_refused(cut(bad_head(unsound()), 7), call, 2);
    assert_refused(cut(bad_head(unsound()), 8), call, 7);
    assert_refused(longer(bad_head(unsound())), call, 7);
    assert_refused(bad_head(unsound()), call, 7);
    assert_refused(cut(unsound(), 8), call, 2);
    assert_refused(longer(unsound()), call, 2);
}

#[test]
fn order_for_make() {
    for numbers in [[1, 2, 4, 2], [2, 1, 4, 2], [2, 2, 0, 2], [2, 2, 4, 0]] {
        for words in [book(), vec![], cut(book(), 7), bad_head(unsound())] {
            assert_refused(words, call_of(numbers), 1);
        }
    }
    let call = call_of(NUMBERS);
    for words in [vec![], cut(book(), 7), cut(book(), 8), longer(book())] {
        assert_refused(words, call, 2);
    }
    let mut words = bad_head(unsound());
    assert_eq!(perform(&mut words, call), Ok(Answer::Done));
}

#[test]
fn order_for_deliveries() {
    assert_opening(delivery(2, 9, 0));
    for (call, number) in [
        (delivery(2, 9, 0), 3),
        (delivery(1, 9, 0), 4),
        (delivery(1, 3, 65_536), 4),
        (delivery(1, 9, 17), 8),
        (delivery(1, 4, 17), 9),
        (delivery(1, 8, 17), 11),
    ] {
        assert_refused(unsound(), call, number);
    }
    assert_refused(book(), delivery(1, 8, 1), 12);
}

/// Window 0 is refused as the others are.
#[test]
fn order_for_queries() {
    let query = |grade, window| Call::Query { grade, window };
    for (grade, window) in [(2, 5), (2, 0), (0, 0)] {
        assert_opening(query(grade, window));
    }
    for (grade, window, number) in [(2, 5, 3), (2, 0, 3), (1, 5, 5), (1, 4, 11), (1, 0, 11)] {
        assert_refused(unsound(), query(grade, window), number);
    }
}

#[test]
fn order_for_clocks() {
    let call = |clock| Call::Clock { clock };
    assert_opening(call(2_000_000_001));
    for (new, number) in [(2_000_000_001, 6), (7, 10), (8, 11), (100, 11)] {
        assert_refused(unsound(), call(new), number);
    }
}

#[test]
fn only_the_named_block_is_inspected() {
    let mut words = unsound();
    assert_sums(&words, &[(4, 0)]);
    assert!(ground(&words, 0, 4).is_ok());
    assert_eq!(deliver(&mut words, 0, 8, 1), Ok(0));
    assert_sums(&words, &[(4, 1)]);
}

#[test]
fn edges_of_stamps() {
    for stamp in [8, 5] {
        assert_eq!(deliver(&mut book(), 0, stamp, 1), Ok(0), "stamp {stamp}");
    }
    for stamp in [9, u32::MAX, u32::MAX - 3, u32::MAX - 4] {
        assert_refused(book(), delivery(0, stamp, 1), 8);
    }
    for stamp in [4, 0] {
        assert_refused(book(), delivery(0, stamp, 1), 9);
    }
}

#[test]
fn edges_of_volumes() {
    for (volume, answer) in [(0, Err(4)), (1, Ok(0)), (16, Ok(5)), (17, Err(12))] {
        assert_eq!(deliver(&mut book(), 0, 8, volume), answer, "{volume}");
    }
    for (volume, number) in [(65_535, 12), (65_536, 4), (u32::MAX, 4)] {
        assert_eq!(deliver(&mut book(), 0, 8, volume), Err(number), "{volume}");
    }
    let mut words = made([2, 2, 16, 1]);
    assert_eq!(deliver(&mut words, 0, 0, 65_535), Ok(28));
    assert_eq!(deliver(&mut words, 0, 0, 2), Err(12));
    assert_eq!(deliver(&mut words, 0, 0, 1), Ok(1));
    assert_sums(&words, &[(1, 65_536)]);
}

#[test]
fn edges_of_clocks() {
    for (new, answer) in [
        (7, Err(10)),
        (8, Ok(())),
        (2_000_000_000, Ok(())),
        (2_000_000_001, Err(6)),
        (u32::MAX, Err(6)),
    ] {
        assert_eq!(clock(&mut book(), new), answer, "clock {new}");
    }
}

#[test]
fn edges_of_windows_and_grades() {
    for (window, answer) in [(0, Ok(0)), (1, Ok(16)), (4, Ok(16)), (5, Err(5)), (u32::MAX, Err(5))]
    {
        assert_eq!(query(&book(), 1, window), answer, "window {window}");
        let sum = ground(&book(), 1, window).map(|ground| ground.sum);
        assert_eq!(sum, answer, "window {window}");
    }
    for grade in [2, 3, 1 << 31, u32::MAX] {
        assert_eq!(query(&book(), grade, 0), Err(3));
        assert_eq!(ground(&book(), grade, 0), Err(3));
        assert_eq!(deliver(&mut book(), grade, 8, 1), Err(3));
    }
}

#[test]
fn edges_of_shapes() {
    let limits = [(2, 20), (2, 1024), (1, 24), (1, 8)];
    let middle = [9, 30, 7, 3];
    for (field, (low, high)) in limits.into_iter().enumerate() {
        let at = |value| {
            let mut numbers = middle;
            numbers[field] = value;
            let [k, n, m, g] = numbers;
            Shape::new(k, n, m, g).is_some()
        };
        assert!(at(low) && at(high), "field {field}");
        assert!(!at(low - 1) && !at(high + 1), "field {field}");
        assert!(!at(u32::MAX) && !at(1 << 31), "field {field}");
    }
}

#[test]
fn largest_book() {
    let mut words = made([20, 1024, 24, 8]);
    assert_eq!(words.len(), 1_229_624);
    clock(&mut words, 2_000_000_000).unwrap();
    deliver(&mut words, 7, 2_000_000_000, 5).unwrap();
    assert_eq!(query(&words, 7, 1 << 20), Ok(5));
    assert_eq!(query(&words, 6, 1 << 20), Ok(0));
}
