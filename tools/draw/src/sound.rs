//! Sound books that no run of calls made: each level is drawn by itself from all that document 01
//! calls sound, whatever the other levels, the other half and the clock say.

use std::collections::BTreeSet;

use reference::histogram::{Bucket, Histogram, Level};
use reference::shape::Shape;
use reference::words::{encode_block, encode_head};

use crate::calls::beside;
use crate::random::Random;

/// Draws of a level before the plainest one is taken.
const ATTEMPTS: usize = 8;

/// The words of a sound book at any clock.
pub fn book(random: &mut Random, shape: Shape) -> Vec<u32> {
    let mut words = vec![0; shape.book_length()];
    encode_head(shape, clock(random, shape), &mut words);
    for grade in 0..shape.g() {
        let block = [0, 1].map(|_| {
            let total = total(random, shape);
            histogram(random, shape, total)
        });
        encode_block(shape, &block, &mut words[shape.block(grade)]);
    }
    words
}

/// A clock anywhere, often next to the start or the end of time or of an interval.
fn clock(random: &mut Random, shape: Shape) -> u32 {
    let ticks = shape.interval_ticks() as u32;
    let border = random.between(1, Shape::CLOCK_MAX / ticks) * ticks;
    match random.below(8) {
        0 => random.below(2) as u32,
        1 => random.between(0, ticks),
        2 => random.between(Shape::CLOCK_MAX - ticks, Shape::CLOCK_MAX),
        3 => Shape::CLOCK_MAX,
        4 => {
            let border = random.pick(&[ticks, ticks, 2 * ticks, border]);
            beside(random, border).min(Shape::CLOCK_MAX)
        }
        5 => random.between(0, Shape::CLOCK_MAX),
        _ => random.between(0, ticks.min(4096) * 4),
    }
}

/// A total from 0 to the capacity, both ends often.
fn total(random: &mut Random, shape: Shape) -> u64 {
    let capacity = shape.capacity();
    let power = 2 << random.below(shape.m().into());
    match random.below(8) {
        0 => random.below(2),
        1 => capacity,
        2 => capacity - 1,
        3 => random.below(capacity + 1),
        _ => random.below(power),
    }
}

/// Levels that are sound under this total, which is below 2^(M+1).
pub fn histogram(random: &mut Random, shape: Shape, total: u64) -> Histogram {
    let mut levels = vec![level_zero(random, shape, total)];
    levels.extend((1..shape.levels()).map(|index| level_from_one(random, shape, index, total)));
    Histogram { total, levels }
}

fn level_zero(random: &mut Random, shape: Shape, total: u64) -> Level {
    let (n, ticks) = (u64::from(shape.n()), shape.interval_ticks());
    if total == 0 {
        return Level::empty(shape, 0);
    }
    let evicted = n <= total && n < ticks && random.one_in(2);
    let (first, count, sum) = if evicted {
        let first = 1 + random.below(ticks - n);
        (first, n, end_or_between(random, n, total))
    } else {
        let most = n.min(total).min(ticks);
        (0, end_or_between(random, 1, most), total)
    };
    let offsets = distinct(random, first, ticks, count);
    let bounds = vec![(1, sum); count as usize];
    let weights = weights(random, &bounds, sum).expect("each weight can be 1");
    let bucket = |(offset, weight)| Bucket { offset, length: 1, weight };
    let buckets = offsets.into_iter().zip(weights).map(bucket).collect();
    Level { first, buckets }
}

fn level_from_one(random: &mut Random, shape: Shape, index: usize, total: u64) -> Level {
    let (n, ticks) = (u64::from(shape.n()), shape.interval_ticks());
    // Two buckets weigh at least 2^(i+1), and one of an interval's length less.
    let most = total >> index;
    if most < 2 {
        let mut level = Level::empty(shape, index);
        level.buckets[0].weight = total;
        return level;
    }
    let can_evict = n <= most && n < ticks;
    let most = most.min(n).min(ticks);
    for attempt in 0..=ATTEMPTS {
        let is_last = attempt == ATTEMPTS;
        let level = if can_evict && (is_last || random.one_in(2)) {
            evicted_level(random, shape, index, total)
        } else {
            let drawn = (!is_last).then(|| end_or_between(random, 2, most));
            kept_level(random, shape, index, total, drawn.unwrap_or(most))
        };
        if let Some(level) = level {
            return level;
        }
    }
    panic!("as many buckets as there can be take the total, or evicted ones leave it")
}

/// A level that evicted nothing: its weights are the total.
fn kept_level(
    random: &mut Random,
    shape: Shape,
    index: usize,
    total: u64,
    count: u64,
) -> Option<Level> {
    let mut spans = Spans::whole(random, shape);
    while (spans.buckets.len() as u64) < count {
        spans.split(random);
    }
    let bounds = spans.bounds(index, total);
    let weights = weights(random, &bounds, total)?;
    Some(spans.level(weights))
}

/// A level that evicted its lowest buckets: n are left, of at most the total.
fn evicted_level(random: &mut Random, shape: Shape, index: usize, total: u64) -> Option<Level> {
    let n = shape.n() as usize;
    let mut spans = Spans::whole(random, shape);
    let mut further = random.below(2 * u64::from(shape.n()));
    while spans.buckets[0].offset == 0 || further > 0 {
        if !spans.split(random) {
            break;
        }
        if spans.buckets.len() > n {
            spans.buckets.remove(0);
        }
        further = further.saturating_sub(1);
    }
    let bounds = spans.bounds(index, total);
    let least = bounds.iter().map(|bound| bound.0).sum();
    let most: u64 = bounds.iter().map(|bound| bound.1).sum();
    let sum = end_or_between(random, least, most.min(total));
    let weights = weights(random, &bounds, sum)?;
    Some(spans.level(weights))
}

/// Buckets that part the interval from the first one's offset on.
struct Spans {
    buckets: Vec<Bucket>,
    /// Where most splits happen; nowhere for splits anywhere.
    target: Option<u64>,
}

impl Spans {
    fn whole(random: &mut Random, shape: Shape) -> Spans {
        let target = random.below(2 * shape.interval_ticks());
        Spans {
            buckets: Level::empty(shape, 1).buckets,
            target: Some(target).filter(|target| *target < shape.interval_ticks()),
        }
    }

    /// Splits one bucket; false where each has length 1.
    fn split(&mut self, random: &mut Random) -> bool {
        let long: Vec<usize> =
            (0..self.buckets.len()).filter(|slot| self.buckets[*slot].length > 1).collect();
        if long.is_empty() {
            return false;
        }
        let aim = self.target.filter(|_| !random.one_in(4));
        let covers = |slot: &usize| aim.is_some_and(|offset| self.buckets[*slot].covers(offset));
        let aimed = long.iter().copied().find(covers);
        let slot = aimed.unwrap_or_else(|| random.pick(&long));
        let parts = self.buckets[slot].split();
        self.buckets.splice(slot..=slot, parts);
        true
    }

    /// The weights that each bucket can have beside others.
    fn bounds(&self, index: usize, total: u64) -> Vec<(u64, u64)> {
        let bound = |bucket: &Bucket| match bucket.length {
            1 => (1 << index, total),
            _ => (1 << index, (2 << index) - 1),
        };
        self.buckets.iter().map(bound).collect()
    }

    fn level(self, weights: Vec<u64>) -> Level {
        let mut buckets = self.buckets;
        for (bucket, weight) in buckets.iter_mut().zip(weights) {
            bucket.weight = weight;
        }
        Level { first: buckets[0].offset, buckets }
    }
}

/// Weights within their bounds that add up to the sum, where there are any.
fn weights(random: &mut Random, bounds: &[(u64, u64)], sum: u64) -> Option<Vec<u64>> {
    let least: u64 = bounds.iter().map(|bound| bound.0).sum();
    let own = |&(low, high): &(u64, u64)| high.saturating_sub(low);
    let mut room: u64 = bounds.iter().map(own).sum();
    let mut rest = sum.checked_sub(least).filter(|rest| *rest <= room)?;
    let mut weights = vec![0; bounds.len()];
    for slot in shuffled(random, bounds.len()) {
        let own = own(&bounds[slot]);
        room -= own;
        let extra = end_or_between(random, rest.saturating_sub(room), own.min(rest));
        rest -= extra;
        weights[slot] = bounds[slot].0 + extra;
    }
    Some(weights)
}

/// A number from `low` to `high`, each end once in six draws.
fn end_or_between(random: &mut Random, low: u64, high: u64) -> u64 {
    match random.below(6) {
        0 => low,
        1 => high,
        _ => low + random.below(high - low + 1),
    }
}

fn shuffled(random: &mut Random, length: usize) -> Vec<usize> {
    let mut slots: Vec<usize> = (0..length).collect();
    for place in (1..length).rev() {
        slots.swap(place, random.below(place as u64 + 1) as usize);
    }
    slots
}

/// So many different numbers from `low` on and below `high`, rising.
fn distinct(random: &mut Random, low: u64, high: u64, count: u64) -> BTreeSet<u64> {
    let mut found = BTreeSet::new();
    for last in high - count..high {
        let drawn = low + random.below(last - low + 1);
        if !found.insert(drawn) {
            found.insert(last);
        }
    }
    found
}
