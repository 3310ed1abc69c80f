//! Unit steps where a level is full: what is evicted, and what the rest of a volume does.

use reference::histogram::{Bucket, Histogram, Level};
use reference::shape::Shape;

fn level(first: u64, buckets: &[(u64, u64, u64)]) -> Level {
    let bucket = |&(offset, length, weight)| Bucket { offset, length, weight };
    Level { first, buckets: buckets.iter().map(bucket).collect() }
}

/// Inserts into one level of shape k = 3, n = 3.
fn insert(mut start: Level, index: usize, offset: u64, volume: u64) -> Level {
    let shape = Shape::new(3, 3, 8, 1).unwrap();
    start.insert(shape, index, offset, volume);
    start
}

#[test]
fn new_lowest_offset_on_a_full_level_0_goes_at_once() {
    let start = level(0, &[(2, 1, 4), (4, 1, 1), (6, 1, 1)]);
    let expected = level(2, &[(2, 1, 4), (4, 1, 1), (6, 1, 1)]);
    assert_eq!(insert(start.clone(), 0, 1, 1), expected);
    assert_eq!(insert(start, 0, 1, 9), expected);
}

#[test]
fn first_of_level_0_follows_the_evicted_offset() {
    let start = level(0, &[(1, 1, 4), (4, 1, 1), (6, 1, 1)]);
    let expected = level(2, &[(4, 1, 1), (5, 1, 2), (6, 1, 1)]);
    assert_eq!(insert(start, 0, 5, 2), expected);
}

#[test]
fn offset_below_first_is_ignored() {
    let start = level(3, &[(4, 1, 1), (5, 1, 2), (6, 1, 1)]);
    assert_eq!(insert(start.clone(), 0, 2, 5), start);
    let start = level(2, &[(2, 2, 2), (4, 2, 3), (6, 2, 3)]);
    assert_eq!(insert(start.clone(), 1, 1, 5), start);
}

#[test]
fn offset_at_first_is_kept() {
    let start = level(4, &[(4, 1, 1), (5, 1, 2), (6, 1, 1)]);
    let expected = level(4, &[(4, 1, 2), (5, 1, 2), (6, 1, 1)]);
    assert_eq!(insert(start, 0, 4, 1), expected);
}

#[test]
fn split_of_the_lowest_bucket_with_the_offset_in_its_lower_part() {
    let start = level(0, &[(0, 4, 3), (4, 2, 2), (6, 2, 2)]);
    let expected = level(2, &[(2, 2, 2), (4, 2, 2), (6, 2, 2)]);
    assert_eq!(insert(start.clone(), 1, 1, 1), expected);
    assert_eq!(insert(start, 1, 1, 100), expected);
}

#[test]
fn split_of_the_lowest_bucket_with_the_offset_in_its_upper_part() {
    let start = level(0, &[(0, 4, 3), (4, 2, 2), (6, 2, 2)]);
    let expected = level(3, &[(3, 1, 99), (4, 2, 2), (6, 2, 2)]);
    assert_eq!(insert(start, 1, 3, 100), expected);
}

#[test]
fn split_further_up_evicts_another_bucket() {
    let start = level(0, &[(0, 4, 3), (4, 2, 2), (6, 2, 2)]);
    let expected = level(4, &[(4, 2, 2), (6, 1, 2), (7, 1, 2)]);
    assert_eq!(insert(start.clone(), 1, 7, 2), expected);
    let expected = level(4, &[(4, 2, 2), (6, 1, 2), (7, 1, 7)]);
    assert_eq!(insert(start, 1, 7, 7), expected);
}

#[test]
fn bucket_of_length_1_grows_without_a_split() {
    let start = level(5, &[(5, 1, 2), (6, 1, 2), (7, 1, 2)]);
    let expected = level(5, &[(5, 1, 2), (6, 1, 65_537), (7, 1, 2)]);
    assert_eq!(insert(start, 1, 6, 65_535), expected);
}

#[test]
fn one_volume_descends_to_a_single_tick() {
    let start = level(0, &[(0, 8, 0)]);
    // 4 split the whole, 2 more split (0,4,..), 2 more split (0,2,..); n = 3 evicts the lowest.
    let expected = level(1, &[(1, 1, 2), (2, 2, 2), (4, 4, 2)]);
    assert_eq!(insert(start, 1, 0, 8), expected);
}

#[test]
fn total_gains_the_whole_volume_where_levels_ignore_it() {
    let shape = Shape::new(2, 2, 6, 1).unwrap();
    let mut histogram = Histogram::empty(shape);
    for offset in [3, 2, 1] {
        histogram.insert(shape, offset, 1);
    }
    assert_eq!(histogram.levels[0], level(2, &[(2, 1, 1), (3, 1, 1)]));
    histogram.insert(shape, 0, 20);
    assert_eq!(histogram.levels[0], level(2, &[(2, 1, 1), (3, 1, 1)]));
    assert_eq!(histogram.total, 23);
}
