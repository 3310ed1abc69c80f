//! The examples of document 01 through the archive, with the windows and the lateness of document 02,
//! request One, and the halvings of request Four. The grounds of request Six are in the crate's first page.

mod books;

use books::{after, made, DELIVERIES, EXAMPLE};
use litres::{clock, delivery, ground, make, query, Refused};

/// Words of a level with two slots.
const LEVEL: usize = 8;

/// The state in which P1, P2, P3, P6 or P7 leaves the book.
fn example(number: usize) -> Vec<u32> {
    after(&DELIVERIES[..[1, 2, 3, 3, 3, 4, 5][number - 1]])
}

/// The words of a level of the even half.
fn level(book: &[u32], index: usize) -> &[u32] {
    &book[10 + LEVEL * index..][..LEVEL]
}

#[test]
fn make_writes_an_empty_book() {
    let book = made(EXAMPLE);
    assert_eq!(book.len(), 90);
    assert_eq!(book[..10], [2, 2, 4, 1, 0, 0, 0, 0, 0, 0]);
    for (index, level) in book[10..].chunks(LEVEL).enumerate() {
        let whole = [1, 0, 0, 4, 0, 0, 0, 0];
        let expected = if index % 5 == 0 { [0; LEVEL] } else { whole };
        assert_eq!(level, expected, "level {index}");
    }
}

#[test]
fn p1_to_p3_and_p6_to_p8_levels() {
    assert_eq!(level(&example(1), 1), [1, 0, 0, 4, 3, 0, 0, 0]);
    assert_eq!(level(&example(2), 1), [2, 0, 0, 2, 2, 2, 2, 2]);
    assert_eq!(level(&example(3), 0), [2, 1, 1, 1, 1, 3, 1, 1]);
    assert_eq!(level(&example(3), 1), [2, 0, 0, 2, 3, 2, 2, 2]);
    assert_eq!(level(&example(6), 1), [2, 1, 1, 1, 2, 2, 2, 2]);
    assert_eq!(level(&example(7), 2), [2, 0, 0, 2, 4, 2, 2, 4]);
    let p8 = after(&[(0, 3), (3, 1), (0, 5)]);
    assert_eq!(level(&p8, 1), [2, 1, 1, 1, 2, 2, 2, 2]);
}

#[test]
fn p4_to_p7_windows() {
    for (number, window, sum) in [(4, 2, 1), (5, 3, 2), (6, 3, 3), (7, 2, 3), (7, 3, 4), (7, 4, 8)]
    {
        assert_eq!(query(&example(number), 0, window), Ok(sum), "P{number}");
    }
    assert_eq!(query(&example(7), 0, 5), Err(Refused(5)));
}

#[test]
fn window_0_answers_0_after_every_refusal() {
    let mut book = example(7);
    assert_eq!(query(&book, 0, 0), Ok(0));
    assert_eq!(query(&book, 1, 0), Err(Refused(3)));
    assert_eq!(query(&book[..89], 0, 0), Err(Refused(2)));
    assert_eq!(query(&book[..7], 0, 0), Err(Refused(2)));
    // A total that no level adds up to; then an unsound head too.
    book[8] += 1;
    assert_eq!(query(&book, 0, 0), Err(Refused(11)));
    assert_eq!(query(&book, 1, 0), Err(Refused(3)));
    book[7] = 1;
    assert_eq!(query(&book, 0, 0), Err(Refused(7)));
}

#[test]
fn p1_to_p8_halvings() {
    let mut book = after(&[]);
    let reported = DELIVERIES.map(|(stamp, volume)| delivery(&mut book, 0, stamp, volume));
    assert_eq!(reported, [0, 1, 0, 1, 2].map(Ok));
    // On level 1 the second decilitre halves a bucket and evicts the half that it is in, on level 2 the
    // fourth halves one.
    assert_eq!(delivery(&mut example(2), 0, 0, 5), Ok(2));
}

#[test]
fn p9_fills_the_interval() {
    for stamp in 0..4 {
        let mut book = example(7);
        let before = book.clone();
        assert_eq!(delivery(&mut book, 0, stamp, 9), Err(Refused(12)));
        assert_eq!(book, before);
        assert_eq!(delivery(&mut book, 0, stamp, 8), Ok(2));
        assert_eq!(book[8], 16);
    }
}

#[test]
fn p10_late_and_ahead() {
    let mut book = example(7);
    clock(&mut book, 8).unwrap();
    let late = Err(Refused(9));
    for (stamp, answer) in [(5, Ok(0)), (4, late), (3, late), (9, Err(Refused(8)))] {
        assert_eq!(delivery(&mut book.clone(), 0, stamp, 1), answer, "{stamp}");
    }
}

#[test]
fn every_other_refusal() {
    let mut book = example(7);
    let before = book.clone();
    assert_eq!(make(&mut book, 1, 2, 4, 1), Err(Refused(1)));
    assert_eq!(make(&mut book, 2, 3, 4, 1), Err(Refused(2)));
    assert_eq!(query(&book[..89], 0, 1), Err(Refused(2)));
    assert_eq!(query(&book, 1, 1), Err(Refused(3)));
    assert_eq!(delivery(&mut book, 0, 3, 65_536), Err(Refused(4)));
    assert_eq!(clock(&mut book, 2_000_000_001), Err(Refused(6)));
    assert_eq!(clock(&mut book, 2), Err(Refused(10)));
    assert_eq!(book, before);
    book[7] = 1;
    assert_eq!(clock(&mut book, 4), Err(Refused(7)));
    book[7] = 0;
    book[8] += 1;
    assert_eq!(clock(&mut book, 4), Err(Refused(11)));
}

#[test]
fn empty_slices() {
    assert_eq!(make(&mut [], 2, 2, 4, 1), Err(Refused(2)));
    assert_eq!(make(&mut [], 0, 2, 4, 1), Err(Refused(1)));
    assert_eq!(clock(&mut [], 0), Err(Refused(2)));
    assert_eq!(delivery(&mut [], 0, 0, 1), Err(Refused(2)));
    assert_eq!(query(&[], 0, 0), Err(Refused(2)));
    assert_eq!(ground(&[], 0, 0), Err(Refused(2)));
}
