//! The examples of document 01: P1 to P10, the two book lengths, the windows and the bench text. What
//! windows answer and which stamps are late is document 02's, request One, how many buckets a delivery
//! splits request Four, and what the ground of a sum is request Six.

mod books;

use books::{assert_sums, delivery, feed, made, Both, DELIVERIES};
use draw::shapes::{within, EXAMPLE, SITE};
use reference::calls::{clock, deliver, query, Answer};
use reference::ground::{ground, Finer, Ground};
use reference::histogram::Histogram;
use reference::protocol::run;
use reference::words::decode_block;

/// The state in which the example P1 to P7 of this number leaves book and ledger.
fn both(number: usize) -> Both {
    Both::example([1, 2, 3, 3, 3, 4, 5][number - 1])
}

fn example(number: usize) -> Vec<u32> {
    both(number).words
}

fn even(words: &[u32]) -> Histogram {
    let shape = within(EXAMPLE);
    let [even, _] = decode_block(shape, &words[shape.block(0)]);
    even.histogram()
}

fn assert_level(words: &[u32], index: usize, first: u64, buckets: &[(u64, u64, u64)]) {
    let level = &even(words).levels[index];
    let found = level.buckets.iter();
    let found: Vec<_> = found.map(|b| (b.offset, b.length, b.weight)).collect();
    assert_eq!(found, buckets, "buckets of level {index}");
    assert_eq!(level.first, first, "first of level {index}");
}

fn assert_ground(words: &[u32], window: u32, sum: u64, level: u32, limit: u64, finer: Finer) {
    let expected = Ground { sum, level, limit, finer };
    assert_eq!(ground(words, 0, window), Ok(expected), "window {window}");
}

#[test]
fn splits_of_p1_to_p7() {
    let mut both = Both::example(0);
    for ((stamp, volume), splits) in DELIVERIES.into_iter().zip([0, 1, 0, 1, 2]) {
        let [book, _] = both.call(delivery(0, stamp, volume));
        assert_eq!(book, Answer::Splits(splits), "stamp {stamp}");
    }
}

#[test]
fn levels_of_p1_to_p7() {
    // P1 stays unsplit, P2 splits on reaching the weight, P3 evicts from level 0 and P6 from level 1.
    assert_level(&example(1), 1, 0, &[(0, 4, 3)]);
    assert_level(&example(2), 1, 0, &[(0, 2, 2), (2, 2, 2)]);
    assert_level(&example(3), 0, 1, &[(1, 1, 1), (3, 1, 1)]);
    assert_level(&example(3), 1, 0, &[(0, 2, 3), (2, 2, 2)]);
    assert_level(&example(6), 1, 1, &[(1, 1, 2), (2, 2, 2)]);
    assert_level(&example(7), 2, 0, &[(0, 2, 4), (2, 2, 4)]);
}

/// The number of an example, a window, the sum of book and ledger, and the level that serves. What both answer
/// in P7 is in quiet.rs.
#[test]
fn questions_of_p1_to_p6() {
    for (number, window, sum, level) in [
        (1, 4, 3, 0),
        (2, 4, 4, 0),
        (3, 4, 5, 1),
        (4, 2, 1, 0),
        (5, 3, 2, 0),
        (6, 3, 3, 0),
        (6, 4, 6, 2),
    ] {
        let both = both(number);
        assert_sums(&both.words, &[(0, 0), (window, sum)]);
        assert_eq!(both.ledger.window_sum(0, window), sum, "P{number}");
        let ground = ground(&both.words, 0, window).unwrap();
        assert_eq!(ground.level, level, "P{number}");
        assert_eq!(query(&both.words, 0, 5), Err(5), "P{number}");
    }
}

#[test]
fn p7_grounds() {
    let words = example(7);
    assert_ground(&words, 0, 0, 0, 0, Finer::WindowZero);
    assert_ground(&words, 1, 1, 0, 0, Finer::LevelZero);
    assert_ground(&words, 2, 3, 0, 0, Finer::LevelZero);
    // The opening is inside level 2's first bucket, which is left out.
    assert_ground(&words, 3, 4, 2, 12, Finer::First(2));
    assert_ground(&words, 4, 8, 2, 12, Finer::First(2));
}

#[test]
fn p8_ignores_the_rest_after_its_bucket_was_evicted() {
    let mut words = example(2);
    // One split on level 1, which evicts the half that spans the stamp, and one on level 2.
    assert_eq!(deliver(&mut words, 0, 0, 5), Ok(2));
    assert_level(&words, 1, 1, &[(1, 1, 2), (2, 2, 2)]);
    // Nine decilitres came in all; level 1 counts four, has evicted two and ignored three.
    assert_eq!(even(&words).total, 9);
    let mut shorter = example(2);
    assert_eq!(deliver(&mut shorter, 0, 0, 2), Ok(1));
    assert_eq!(even(&shorter).levels[1], even(&words).levels[1]);
}

#[test]
fn p9_fills_the_interval_exactly() {
    for stamp in 0..=3 {
        let mut words = example(7);
        let before = words.clone();
        assert_eq!(deliver(&mut words, 0, stamp, 9), Err(12));
        assert_eq!(words, before);
        assert_eq!(deliver(&mut words, 0, stamp, 8), Ok(2));
        assert_eq!(even(&words).total, 16);
        assert_eq!(deliver(&mut words, 0, stamp, 1), Err(12));
    }
}

#[test]
fn p10_meets_both_ends_of_the_allowed_stamps() {
    let mut start = example(7);
    clock(&mut start, 8).unwrap();
    for (stamp, answer) in [(5, Ok(0)), (4, Err(9)), (3, Err(9)), (9, Err(8))] {
        let mut words = start.clone();
        assert_eq!(deliver(&mut words, 0, stamp, 1), answer, "stamp {stamp}");
        assert_eq!(words == start, answer.is_err());
    }
}

#[test]
fn two_book_lengths() {
    assert_eq!(within(EXAMPLE).book_length(), 90);
    assert_eq!(within(SITE).book_length(), 66_260);
}

/// The levels of an empty half in words.
fn empty_half() -> Vec<u32> {
    let other = [1, 0, 0, 4, 0, 0, 0, 0];
    [[0; 8], other, other, other, other].concat()
}

#[test]
fn words_of_a_new_book() {
    let head = vec![2, 2, 4, 1, 0, 0, 0, 0, 0, 0];
    assert_eq!(made(EXAMPLE), [head, empty_half().repeat(2)].concat());
}

#[test]
fn words_of_p3() {
    let whole = [1, 0, 0, 4, 5, 0, 0, 0];
    let even = [[2, 1, 1, 1, 1, 3, 1, 1], [2, 0, 0, 2, 3, 2, 2, 2], whole, whole, whole];
    let head = vec![2, 2, 4, 1, 3, 0, 0, 0, 5, 0];
    assert_eq!(example(3), [head, even.concat(), empty_half()].concat());
}

#[test]
fn bench_text() {
    let input = "m 2 2 4 1;c 3;d 0 0 3;d 0 3 1;d 0 1 1;q 0 2;d 0 4 1;q 0 4;q 0 5";
    let expected = "ok;ok;ok;ok;ok;= 1;refused 8;= 5;refused 5;";
    let mut output = Vec::new();
    // The second delivery splits a bucket, of which its line says nothing.
    run(input.replace(';', "\n").as_bytes(), &mut output).unwrap();
    let output = String::from_utf8(output).unwrap();
    assert_eq!(output, expected.replace(';', "\n"));
}

#[test]
fn first_can_rise_from_one_level_to_the_next() {
    let mut words = made([2, 2, 3, 1]);
    feed(&mut words, 3, &[2, 2, 0, 0, 2, 3].map(|stamp| (stamp, 1)));
    assert_eq!(draw::grounds::firsts(&words, 0, 3), [1, 2, 0, 0]);
    // Opening 1 is kept by level 0 although level 1 has lost it.
    assert_sums(&words, &[(3, 4)]);
    assert_ground(&words, 3, 4, 0, 0, Finer::LevelZero);
    // Opening 0 is lost by both.
    assert_ground(&words, 4, 6, 2, 12, Finer::First(2));
}
