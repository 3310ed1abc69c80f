//! Every condition of a sound head and of a sound block broken alone, and numbers that are right
//! only modulo 2^32.

mod books;

use books::{assert_sums, made};
use draw::shapes::within;
use reference::calls::{clock, deliver, make, query};
use reference::layout;
use reference::shape::Shape;
use reference::soundness::{block_faults, Fault, Fault::*};
use reference::words::decode_block;

const TOP: u32 = 1 << 31;
const MAX: u32 = u32::MAX;

/// Four ticks, two slots, levels 0 to 2, one grade.
fn small() -> Shape {
    within([2, 2, 2, 1])
}

/// A sound book of the small shape at clock 7. The even histogram has evicted nothing, the odd one
/// has on levels 0 and 1.
fn sound() -> Vec<u32> {
    let even = [[1, 0, 0, 1, 4, 0, 0, 0], [2, 0, 0, 2, 2, 2, 2, 2], [1, 0, 0, 4, 4, 0, 0, 0]];
    let odd = [[2, 1, 1, 1, 1, 3, 1, 1], [2, 2, 2, 1, 2, 3, 1, 2], [1, 0, 0, 4, 4, 0, 0, 0]];
    let head = vec![2, 2, 2, 1, 7, 0, 0, 0, 4, 4];
    [head, even.concat(), odd.concat()].concat()
}

/// The sound book with the words of one level replaced.
fn replaced(parity: usize, index: usize, level: [u32; 8]) -> Vec<u32> {
    let mut words = sound();
    let start = layout::HEAD_WORDS;
    words[start..][small().level(parity, index)].copy_from_slice(&level);
    words
}

fn faults(words: &[u32]) -> Vec<Fault> {
    let block = decode_block(small(), &words[small().block(0)]);
    block_faults(small(), &block)
}

/// Every call that reads the block gives this number and leaves the words alone.
fn assert_refused(words: &[u32], number: u32) {
    let mut after = words.to_vec();
    for window in [0, 1, 4] {
        assert_eq!(query(&after, 0, window), Err(number), "{words:?}");
    }
    for volume in [1, 65_535] {
        assert_eq!(deliver(&mut after, 0, 5, volume), Err(number), "{words:?}");
    }
    for new in [7, 8, 100] {
        assert_eq!(clock(&mut after, new), Err(number), "{words:?}");
    }
    assert_eq!(after, words);
}

/// Parity, index and words of one level, and the conditions that they break.
type Case = (usize, usize, [u32; 8], &'static [Fault]);

const LEVEL_0: [Case; 22] = [
    (0, 0, [3, 0, 0, 1, 3, 1, 1, 1], &[Count]),
    (0, 0, [MAX, 0, 0, 1, 3, 1, 1, 1], &[Count]),
    (0, 0, [1, 0, 0, 1, 4, 1, 0, 0], &[Unused]),
    (0, 0, [1, 0, 0, 1, 4, 0, 1, 0], &[Unused]),
    (0, 0, [1, 0, 0, 1, 4, 0, 0, 1], &[Unused]),
    (1, 0, [2, 1, 1, 1, 4, 3, 1, 1], &[Excess]),
    (0, 0, [1, 0, 0, 1, 3, 0, 0, 0], &[Missing]),
    (0, 0, [0, 0, 0, 0, 0, 0, 0, 0], &[Missing]),
    (0, 0, [1, 0, 0, 1, 5, 0, 0, 0], &[Excess, Missing]),
    (1, 0, [1, 1, 3, 1, 1, 0, 0, 0], &[Spare]),
    (1, 0, [0, 4, 0, 0, 0, 0, 0, 0], &[Spare, First]),
    (1, 0, [2, 4, 4, 1, 1, 5, 1, 1], &[First, Offset]),
    (1, 0, [2, 1, 3, 1, 1, 1, 1, 1], &[Order]),
    (1, 0, [2, 1, 3, 1, 1, 3, 1, 1], &[Order]),
    (1, 0, [2, 2, 1, 1, 1, 3, 1, 1], &[Offset]),
    (1, 0, [2, 1, 1, 1, 1, 4, 1, 1], &[Offset]),
    (1, 0, [2, 1, 1, 1, 1, MAX, 1, 1], &[Offset]),
    (1, 0, [2, 1, 1, 2, 1, 3, 1, 1], &[Tick]),
    (1, 0, [2, 1, 1, 1, 1, 3, 0, 1], &[Tick]),
    (1, 0, [2, 1, 1, 1, 0, 3, 1, 1], &[Weightless]),
    (1, 0, [2, 1, 1, 1, 1, 3, 1, 0], &[Weightless]),
    (0, 0, [2, 0, 0, 1, 4, 1, 1, 0], &[Weightless]),
];

const OTHER_LEVELS: [Case; 21] = [
    (0, 1, [3, 0, 0, 2, 2, 2, 2, 2], &[Count]),
    (1, 1, [3, 2, 2, 1, 2, 3, 1, 2], &[Count, Spare]),
    (0, 2, [1, 0, 0, 4, 4, 0, 0, 9], &[Unused]),
    (1, 1, [2, 2, 2, 1, 3, 3, 1, 2], &[Excess]),
    (0, 2, [1, 0, 0, 4, 3, 0, 0, 0], &[Missing]),
    (0, 1, [1, 0, 0, 4, 3, 0, 0, 0], &[Missing]),
    (1, 1, [1, 2, 2, 2, 3, 0, 0, 0], &[Spare]),
    (1, 1, [2, 1, 2, 1, 2, 3, 1, 2], &[Start]),
    (1, 1, [2, 3, 2, 1, 2, 3, 1, 2], &[Start]),
    (1, 1, [2, 0, 2, 1, 2, 3, 1, 2], &[Start]),
    (0, 1, [2, 0, 0, 1, 2, 2, 2, 2], &[Gap]),
    (0, 1, [2, 0, 0, 4, 2, 2, 2, 2], &[Gap]),
    (0, 1, [2, 0, 0, 1, 2, 1, 1, 2], &[End]),
    (0, 1, [2, 0, 0, 4, 2, 4, 4, 2], &[End]),
    (0, 2, [1, 0, 0, 8, 4, 0, 0, 0], &[End]),
    (0, 1, [2, 0, 0, 3, 2, 3, 1, 2], &[Alignment]),
    (0, 1, [2, 1, 1, 2, 2, 3, 1, 2], &[Alignment]),
    (0, 1, [2, 0, 0, 0, 2, 0, 4, 2], &[Alignment]),
    (0, 1, [1, 0, 0, 4, 4, 0, 0, 0], &[Heavy]),
    (0, 1, [2, 0, 0, 2, 1, 2, 2, 3], &[Light]),
    (1, 1, [2, 2, 2, 1, 1, 3, 1, 2], &[Light]),
];

#[test]
fn undamaged_book_is_accepted() {
    let mut words = sound();
    assert_eq!(faults(&words), []);
    // Offsets 3 to 0 of the odd histogram; only its last level still keeps offset 0.
    assert_sums(&words, &[(0, 0), (1, 1), (2, 1), (3, 2), (4, 4)]);
    assert_eq!(deliver(&mut words, 0, 5, 1), Err(12));
    assert_eq!(clock(&mut words, 8), Ok(()));
    assert_eq!(deliver(&mut words, 0, 8, 4), Ok(1));
}

#[test]
fn each_condition_of_a_level_is_found() {
    for (parity, index, level, expected) in LEVEL_0.into_iter().chain(OTHER_LEVELS) {
        let words = replaced(parity, index, level);
        assert_eq!(faults(&words), expected, "{level:?}");
        assert_refused(&words, 11);
    }
}

#[test]
fn total_above_the_capacity_is_found() {
    let mut words = replaced(0, 0, [1, 0, 0, 1, 5, 0, 0, 0]);
    words[8] = 5;
    words[8..][small().level(0, 1)].copy_from_slice(&[2, 0, 0, 2, 2, 2, 2, 3]);
    words[8..][small().level(0, 2)].copy_from_slice(&[1, 0, 0, 4, 5, 0, 0, 0]);
    assert_eq!(faults(&words), [Total]);
    assert_refused(&words, 11);
}

#[test]
fn level_without_a_bucket_is_found() {
    let mut words = made([2, 2, 2, 1]);
    words[layout::CLOCK] = 7;
    for (parity, index) in [(0, 1), (0, 2), (1, 1), (1, 2)] {
        let mut words = words.clone();
        words[8..][small().level(parity, index)].fill(0);
        assert_eq!(faults(&words), [Empty]);
        assert_refused(&words, 11);
    }
}

#[test]
fn numbers_right_only_modulo_2_to_the_32() {
    // Weights that add up to the total, buckets that meet, and a last end, each after a wrap.
    for (parity, index, level) in [
        (0, 0, [2, 0, 0, 1, MAX, 1, 1, 5]),
        (1, 0, [2, 1, 1, 1, MAX, 3, 1, 2]),
        (1, 1, [2, 2, 2, 1, TOP, 3, 1, TOP]),
        (1, 1, [2, TOP, TOP, TOP, 2, 0, 4, 2]),
        (1, 1, [2, TOP + 4, TOP + 4, TOP, 2, 4, 0, 2]),
        (0, 1, [2, 0, 0, TOP + 4, 2, TOP + 4, TOP, 2]),
        (1, 1, [2, MAX, MAX, 1, 2, 0, 4, 2]),
    ] {
        let words = replaced(parity, index, level);
        assert!(!faults(&words).is_empty(), "{level:?}");
        assert_refused(&words, 11);
    }
    let mut words = sound();
    words[9] = MAX;
    assert_refused(&words, 11);
    // 2^30 more slots change the length by a multiple of 2^32.
    let mut words = made([2, 2, 1, 1]);
    assert_eq!(make(&mut words, 2, 2 + (1 << 30), 1, 1), Err(1));
    words[1] += 1 << 30;
    assert_refused(&words, 7);
}

#[test]
fn each_condition_of_the_head_is_found() {
    let broken: [(usize, &[u32]); 8] = [
        (0, &[0, 1, 21, 32, MAX]),
        (1, &[0, 1, 1025, TOP, MAX]),
        (2, &[0, 25, 64, MAX]),
        (3, &[0, 9, TOP, MAX]),
        (4, &[2_000_000_001, MAX]),
        (5, &[1, MAX]),
        (6, &[1, MAX]),
        (7, &[1, MAX]),
    ];
    for (field, values) in broken {
        for value in values {
            let mut words = sound();
            words[field] = *value;
            assert_refused(&words, 7);
            words.truncate(8);
            assert_refused(&words, 7);
            words.truncate(7);
            assert_refused(&words, 2);
        }
    }
    // Eight words fit a book without grades, which is none.
    assert_refused(&[2, 2, 2, 0, 7, 0, 0, 0], 7);
}
