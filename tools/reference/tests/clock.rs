//! What the clock empties: nothing, one histogram of every grade, or both.

mod books;

use books::made;
use draw::shapes::{within, Numbers};
use reference::calls::{clock, deliver, query};
use reference::histogram::Histogram;
use reference::layout;
use reference::shape::Shape;
use reference::words::{decode_block, encode_block};

const NUMBERS: Numbers = [2, 3, 5, 3];

fn shape() -> Shape {
    within(NUMBERS)
}

/// Three grades at clock 5, with a delivery at each tick from 1 on, so in both intervals.
fn book() -> Vec<u32> {
    let mut words = made(NUMBERS);
    for now in 1..=5 {
        clock(&mut words, now).unwrap();
        for grade in 0..3 {
            deliver(&mut words, grade, now, 2 + grade).unwrap();
        }
    }
    words
}

/// The book after a later clock.
fn moved(new: u32) -> Vec<u32> {
    let mut words = book();
    clock(&mut words, new).unwrap();
    words
}

/// The words with a new clock and these parities of every grade emptied.
fn emptied(mut words: Vec<u32>, new: u32, parities: &[usize]) -> Vec<u32> {
    words[layout::CLOCK] = new;
    for grade in 0..3 {
        let range = shape().block(grade);
        let raw = decode_block(shape(), &words[range.clone()]);
        let mut block = raw.map(|raw| raw.histogram());
        for parity in parities {
            block[*parity] = Histogram::empty(shape());
        }
        encode_block(shape(), &block, &mut words[range]);
    }
    words
}

#[test]
fn clock_within_the_interval_changes_one_word() {
    for new in [5, 6, 7] {
        let mut expected = book();
        expected[layout::CLOCK] = new;
        assert_eq!(moved(new), expected);
    }
}

#[test]
fn next_interval_empties_its_parity() {
    for new in 8..=11 {
        assert_eq!(moved(new), emptied(book(), new, &[0]));
    }
    let mut words = moved(8);
    clock(&mut words, 12).unwrap();
    assert_eq!(words, emptied(moved(8), 12, &[1]));
}

#[test]
fn skipped_interval_empties_both() {
    // Interval 3 has the parity of the interval that it leaves, interval 4 the other one.
    for new in [12, 13, 15, 16, 19, 20, 1000, 2_000_000_000] {
        let words = moved(new);
        assert_eq!(words, emptied(book(), new, &[0, 1]));
        for grade in 0..3 {
            assert_eq!(query(&words, grade, 4), Ok(0));
        }
    }
}

#[test]
fn all_grades_are_inspected_before_any_is_emptied() {
    for grade in 0..3 {
        for parity in 0..2 {
            let mut words = book();
            words[shape().block(grade)][layout::BOOK.total(parity).start] += 1;
            for new in [5, 6, 8, 12] {
                let before = words.clone();
                assert_eq!(clock(&mut words, new), Err(11));
                assert_eq!(words, before);
            }
        }
    }
}
