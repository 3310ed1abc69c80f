//! How many buckets a delivery splits (document 02's halvings, request Four).

mod books;

use books::{delivery, made};
use draw::random::Random;
use draw::shapes::{self, within};
use draw::sound;
use reference::calls::{clock, perform, Answer};
use reference::histogram::{Histogram, Level};
use reference::protocol::answer;
use reference::replay::{answer_words, ANSWER_WORDS};
use reference::shape::Shape;
use reference::words::decode_block;

/// The splits of each level for a volume in a fresh half.
fn of_levels(shape: Shape, offset: u64, volume: u64) -> Vec<u32> {
    let levels = 0..shape.levels();
    levels.map(|index| Level::empty(shape, index).insert(shape, index, offset, volume)).collect()
}

#[test]
fn a_volume_that_outlasts_its_bucket() {
    // Level 1 splits at 4, then at 2 more, which evicts the half at offset 1. The last three are
    // ignored: they split nothing.
    assert_eq!(of_levels(within([3, 2, 6, 1]), 1, 9), [0, 2, 1, 0, 0, 0, 0]);
}

/// The decilitre that reaches the limit splits, also where it is the last.
#[test]
fn a_split_that_leaves_nothing_to_insert() {
    for (volume, splits) in [(3, 0), (4, 1), (5, 1), (6, 2), (7, 2), (8, 3), (9, 3)] {
        let found = of_levels(within([3, 9, 1, 1]), 7, volume);
        assert_eq!(found, [0, splits], "{volume}");
    }
}

/// In a fresh half every split but the first of level i takes 2^i, the first one as much again. At the
/// last offset nothing hinders them; at the first one the n-th split evicts the half with the rest.
#[test]
fn fresh_halves() {
    let mut random = Random::new(1);
    for _ in 0..2_000 {
        let (k, m) = (random.between(2, 20), random.between(1, 24));
        let shape = within([k, random.between(2, 24), m, 1]);
        let volume = random.between(1, 65_535.min(1 << m)) >> random.below(16);
        let expected = |most: u32| -> Vec<u32> {
            let full = |index: u32| (volume >> index).saturating_sub(1);
            let levels = (1..=m).map(|index| full(index).min(most));
            [0].into_iter().chain(levels).collect()
        };
        let last = shape.interval_ticks() - 1;
        assert_eq!(of_levels(shape, last, volume.into()), expected(k));
        let first = expected(k.min(shape.n()));
        assert_eq!(of_levels(shape, 0, volume.into()), first);
    }
}

/// A split makes one bucket more, and an eviction, at which F rises, one less.
fn gained(before: &Level, after: &Level) -> u32 {
    let evicted = u32::from(after.first > before.first);
    after.buckets.len() as u32 + evicted - before.buckets.len() as u32
}

/// Sound levels of every kind: the splits of a volume are the buckets that its unit steps gain.
#[test]
fn buckets_gained_by_unit_steps() {
    let mut random = Random::new(2);
    let (mut splits, mut evicting, mut most) = (0, 0, 0);
    for _ in 0..400 {
        let shape = shapes::draw(&mut random);
        let words = sound::book(&mut random, shape);
        let [even, _] = decode_block(shape, &words[shape.block(0)]);
        let half = even.histogram();
        let offset = random.below(shape.interval_ticks());
        let room = (shape.capacity() - half.total).min(600);
        let volume = random.below(room + 1);
        let mut of_levels = 0;
        for (index, level) in half.levels.iter().enumerate() {
            let mut steps = level.clone();
            let mut expected = 0;
            for _ in 0..volume {
                let before = steps.clone();
                steps.insert_unit(shape, index, offset);
                if index > 0 {
                    expected += gained(&before, &steps);
                }
            }
            let mut whole = level.clone();
            let found = whole.insert(shape, index, offset, volume);
            assert_eq!((found, &whole), (expected, &steps), "{level:?}, {offset}");
            assert!(found <= shape.k(), "{level:?}, {offset}: {found}");
            of_levels += found;
            splits += found;
            evicting += u32::from(found > 0 && steps.first > level.first);
            most = most.max(found);
        }
        let mut inserted: Histogram = half.clone();
        assert_eq!(inserted.insert(shape, offset, volume), of_levels);
    }
    let met = [splits, evicting, most];
    assert!(splits > 300 && evicting > 100 && most > 3, "{met:?}");
}

/// What is printed or replayed does not tell the splits.
#[test]
fn splits_are_not_told() {
    let mut words = made([3, 2, 6, 1]);
    clock(&mut words, 7).unwrap();
    let reply = perform(&mut words, delivery(0, 1, 9));
    assert_eq!(reply, Ok(Answer::Splits(3)));
    assert_eq!(answer(reply), "ok");
    assert_eq!(answer_words(reply), [0; ANSWER_WORDS]);
}
