//! Which heads and blocks are sound, condition by condition (document 01, refusal 7 and the last
//! paragraph of "Turned down by the state"). Words of any content are taken: a sum of up to 1,024
//! weights, each below 2^64, is kept in 128 bits.

use crate::histogram::Bucket;
use crate::layout::{Layout, BOOK};
use crate::shape::Shape;
use crate::words::{RawHead, RawHistogram, RawLevel};

/// A condition of a sound block that does not hold.
#[derive(Clone, Copy, Debug, PartialEq, Eq, Hash)]
pub enum Fault {
    /// Any histogram: its total is above 2^M.
    Total,
    /// Any level: more buckets than slots.
    Count,
    /// Any level: a slot without a bucket is not zero.
    Unused,
    /// Any level: its weights exceed the total.
    Excess,
    /// Any level: nothing was evicted and the weights are not the total.
    Missing,
    /// Any level: something was evicted although a slot is free.
    Spare,
    /// Level 0: the first kept offset is outside the interval.
    First,
    /// Level 0: offsets do not rise.
    Order,
    /// Level 0: an offset is below the first kept one or outside the interval.
    Offset,
    /// Level 0: a length is not 1.
    Tick,
    /// Level 0: a weight is 0.
    Weightless,
    /// Other levels: no bucket.
    Empty,
    /// Other levels: the first bucket does not start at the first kept offset.
    Start,
    /// Other levels: a bucket does not start where the one before it ends.
    Gap,
    /// Other levels: the last bucket does not end with the interval.
    End,
    /// Other levels: a length is no power of two that divides its offset.
    Alignment,
    /// Other levels: a bucket that should have been split.
    Heavy,
    /// Other levels: a bucket too light to come from a split.
    Light,
}

impl Layout {
    /// The shape and the clock of a head that is sound in this layout.
    pub fn sound_head(self, head: RawHead) -> Option<(Shape, u32)> {
        let [k, n, m, g] = head.shape;
        let shape = Shape::new(k, n, m, g)?;
        let sound = head.clock <= Shape::CLOCK_MAX && head.padding == self.padding();
        sound.then_some((shape, head.clock))
    }
}

/// The shape and the clock of a book's sound head.
pub fn sound_head(head: RawHead) -> Option<(Shape, u32)> {
    BOOK.sound_head(head)
}

/// Whether a block meets every condition.
pub fn block_is_sound(shape: Shape, block: &[RawHistogram; 2]) -> bool {
    block_faults(shape, block).is_empty()
}

/// Every condition that fails, once for each level or histogram on which it fails.
pub fn block_faults(shape: Shape, block: &[RawHistogram; 2]) -> Vec<Fault> {
    let mut faults = Vec::new();
    for histogram in block {
        collect(&mut faults, [(Fault::Total, histogram.total <= shape.capacity())]);
        for (index, level) in histogram.levels.iter().enumerate() {
            collect(&mut faults, any_level(shape, histogram.total, level));
            if index == 0 {
                collect(&mut faults, level_zero(shape, level));
            } else {
                collect(&mut faults, level_from_one(shape, index, level));
            }
        }
    }
    faults
}

fn collect<const N: usize>(faults: &mut Vec<Fault>, conditions: [(Fault, bool); N]) {
    let failed = conditions.into_iter().filter(|(_, holds)| !holds);
    faults.extend(failed.map(|(fault, _)| fault));
}

fn any_level(shape: Shape, total: u64, level: &RawLevel) -> [(Fault, bool); 5] {
    let zero = Bucket { offset: 0, length: 0, weight: 0 };
    let weights: u128 = level.buckets().iter().map(|b| u128::from(b.weight)).sum();
    let total = u128::from(total);
    let n = u64::from(shape.n());
    [
        (Fault::Count, level.count <= n),
        (Fault::Unused, level.unused().iter().all(|b| *b == zero)),
        (Fault::Excess, weights <= total),
        (Fault::Missing, level.first != 0 || weights == total),
        (Fault::Spare, level.first == 0 || level.count == n),
    ]
}

fn level_zero(shape: Shape, level: &RawLevel) -> [(Fault, bool); 5] {
    let buckets = level.buckets();
    let kept = level.first..shape.interval_ticks();
    let rising = buckets.windows(2).all(|b| b[0].offset < b[1].offset);
    [
        (Fault::First, level.first < shape.interval_ticks()),
        (Fault::Order, rising),
        (Fault::Offset, buckets.iter().all(|b| kept.contains(&b.offset))),
        (Fault::Tick, buckets.iter().all(|b| b.length == 1)),
        (Fault::Weightless, buckets.iter().all(|b| b.weight >= 1)),
    ]
}

fn level_from_one(shape: Shape, index: usize, level: &RawLevel) -> [(Fault, bool); 7] {
    let buckets = level.buckets();
    let start = buckets.first().map(|b| b.offset);
    let end = buckets.last().map(|b| b.end());
    let aligned = |b: &Bucket| b.length.is_power_of_two() && b.offset.is_multiple_of(b.length);
    let split = |b: &Bucket| b.length <= 1 || b.weight < 2 << index;
    let light = buckets.iter().any(|b| b.weight < 1 << index);
    [
        (Fault::Empty, level.count >= 1),
        (Fault::Start, start.is_none_or(|s| s == level.first)),
        (Fault::Gap, buckets.windows(2).all(|b| b[0].end() == b[1].offset)),
        (Fault::End, end.is_none_or(|end| end == shape.interval_ticks())),
        (Fault::Alignment, buckets.iter().all(aligned)),
        (Fault::Heavy, buckets.iter().all(split)),
        (Fault::Light, level.count < 2 || !light),
    ]
}
