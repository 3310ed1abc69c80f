//! The four calls of document 01 written by hand on a lent slice of words, in safe Rust, in two
//! versions that the benchmark holds against the proved library.
//!
//! Both share the layout, the order of the refusals and the insertion; they differ in the check of a
//! block, which is nearly all of a call: [`Plain`] leaves at the first fault, [`Fast`] runs through a
//! level and looks at its faults once, so that the compiler can vectorise it.

mod fast;
mod insertion;
mod plain;
#[cfg(test)]
mod tests;

use std::ops::Range;

use reference::calls::{Answer, Call, Reply};
use reference::layout;
use reference::refusal::{self, when};
use reference::shape::Shape;
use reference::window::opening;

pub use fast::Fast;
pub use plain::Plain;

/// A slot's words: offset, length, weight.
type Slot = [u32; layout::SLOT_WORDS];

/// A level's words: the bucket count, the first kept offset, and all n slots.
type Level<'a> = (u32, u32, &'a [Slot]);

/// The four calls on words of any length and content; an error is the refusal's number, and a call
/// that is refused writes no word.
pub trait Calls {
    /// Whether every word of unused slots is 0.
    fn are_zero(slots: &[Slot]) -> bool;

    /// The sum of the weights of level 0, which has a bucket for every tick; nothing where one is unsound.
    fn ticks(shape: Shape, first: u32, buckets: &[Slot]) -> Option<u64>;

    /// The same of a level from 1 on, whose buckets span all from the first offset on. Where something was
    /// evicted, a bound of the sum within the total is as good.
    fn spans(shape: Shape, index: u32, first: u32, buckets: &[Slot], total: u32) -> Option<u64>;

    /// Whether these words, as many as a block has, are a sound block.
    fn is_sound(shape: Shape, block: &[u32]) -> bool {
        [0, 1].into_iter().all(|parity| {
            let total = block[parity];
            let mut levels = (0..).zip(levels(shape, block, parity));
            u64::from(total) <= shape.capacity()
                && levels.all(|(index, level)| Self::level_is_sound(shape, index, level, total))
        })
    }

    #[inline(always)]
    fn level_is_sound(shape: Shape, index: u32, level: Level, total: u32) -> bool {
        let (count, first, slots) = level;
        let Some((used, unused)) = slots.split_at_checked(count as usize) else {
            return false;
        };
        let sum = || match index {
            0 => Self::ticks(shape, first, used),
            _ => Self::spans(shape, index, first, used, total),
        };
        // At most the total, and exactly it where nothing was evicted.
        let weighs = |sum: u64| sum <= total.into() && (first != 0 || sum == total.into());
        // In the order in which they lie.
        (first == 0 || unused.is_empty()) && sum().is_some_and(weighs) && Self::are_zero(unused)
    }

    fn perform(book: &mut [u32], call: Call) -> Reply {
        let done = |()| Answer::Done;
        match call {
            Call::Make { k, n, m, g } => Self::make(book, k, n, m, g).map(done),
            Call::Clock { clock } => Self::clock(book, clock).map(done),
            Call::Delivery { grade, stamp, volume } => {
                Self::delivery(book, grade, stamp, volume).map(Answer::Splits)
            }
            Call::Query { grade, window } => Self::query(book, grade, window).map(Answer::Sum),
        }
    }

    /// Writes an empty book, whatever the words were.
    fn make(book: &mut [u32], k: u32, n: u32, m: u32, g: u32) -> Result<(), u32> {
        let shape = Shape::new(k, n, m, g).ok_or(refusal::SHAPE)?;
        when(book.len() != shape.book_length(), refusal::LENGTH)?;
        book[..layout::HEAD_WORDS].copy_from_slice(&[k, n, m, g, 0, 0, 0, 0]);
        for grade in 0..g {
            for parity in [0, 1] {
                empty(shape, &mut book[shape.block(grade)], parity);
            }
        }
        Ok(())
    }

    /// Moves the clock on. Where it enters another interval, only that one and the one before it are kept.
    fn clock(book: &mut [u32], clock: u32) -> Result<(), u32> {
        let (shape, old) = open(book)?;
        when(clock > Shape::CLOCK_MAX, refusal::CLOCK_LIMIT)?;
        when(clock < old, refusal::CLOCK_BACK)?;
        for grade in 0..shape.g() {
            let sound = Self::is_sound(shape, &book[shape.block(grade)]);
            when(!sound, refusal::BLOCK)?;
        }
        book[layout::CLOCK] = clock;
        let entered = shape.interval(clock.into()) - shape.interval(old.into());
        let parity = shape.parity(clock.into());
        let emptied = &[parity, 1 - parity][..entered.min(2) as usize];
        for grade in 0..shape.g() {
            for parity in emptied {
                empty(shape, &mut book[shape.block(grade)], *parity);
            }
        }
        Ok(())
    }

    /// Records a delivery in the half of its stamp's interval; how many buckets it splits.
    fn delivery(book: &mut [u32], grade: u32, stamp: u32, volume: u32) -> Result<u32, u32> {
        let (shape, clock) = open(book)?;
        when(grade >= shape.g(), refusal::GRADE)?;
        when(volume == 0 || volume > Shape::VOLUME_MAX, refusal::VOLUME)?;
        when(stamp > clock, refusal::AHEAD)?;
        when(shape.is_late(clock, stamp), refusal::LATE)?;
        let tick = u64::from(stamp);
        let block = &mut book[shape.block(grade)];
        when(!Self::is_sound(shape, block), refusal::BLOCK)?;
        let parity = shape.parity(tick);
        let total = u64::from(block[parity]) + u64::from(volume);
        when(total > shape.capacity(), refusal::FULL)?;
        block[parity] += volume;
        let offset = shape.offset(tick) as u32;
        let levels = block[half(shape, parity)].chunks_exact_mut(shape.level_length());
        let insert = |(index, level)| insertion::insert(level, index, offset, volume);
        Ok((0..).zip(levels).map(insert).sum())
    }

    /// The sum of a window that ends at the clock; 0 for window 0, once nothing refuses it.
    fn query(book: &[u32], grade: u32, window: u32) -> Result<u64, u32> {
        let (shape, clock) = open(book)?;
        when(grade >= shape.g(), refusal::GRADE)?;
        let too_long = u64::from(window) > shape.interval_ticks();
        when(too_long, refusal::WINDOW)?;
        let block = &book[shape.block(grade)];
        when(!Self::is_sound(shape, block), refusal::BLOCK)?;
        let Some(opening) = opening(clock, window) else {
            return Ok(0);
        };
        let (opened, now) = (shape.parity(opening), shape.parity(clock.into()));
        // The interval of the opening is that of the clock or the one before.
        let whole = if opened == now { 0 } else { block[now] };
        Ok(u64::from(whole) + sum_from(shape, block, opening))
    }
}

/// The refusals that clock, delivery and query share: too short for a head, head, length.
fn open(book: &[u32]) -> Result<(Shape, u32), u32> {
    let head = book.first_chunk::<{ layout::HEAD_WORDS }>();
    let &[k, n, m, g, clock, a, b, c] = head.ok_or(refusal::LENGTH)?;
    let shape = Shape::new(k, n, m, g).ok_or(refusal::HEAD)?;
    when(clock > Shape::CLOCK_MAX || a | b | c != 0, refusal::HEAD)?;
    when(book.len() != shape.book_length(), refusal::LENGTH)?;
    Ok((shape, clock))
}

/// Empties one half of a block: only count and length of each first bucket are not zero.
fn empty(shape: Shape, block: &mut [u32], parity: usize) {
    block[parity] = 0;
    let levels = &mut block[half(shape, parity)];
    levels.fill(0);
    for level in levels.chunks_exact_mut(shape.level_length()).skip(1) {
        level[layout::COUNT] = 1;
        level[layout::LEVEL_HEAD_WORDS + layout::LENGTH] = shape.interval_ticks() as u32;
    }
}

/// The weight from a tick on, from the finest level of its half that still keeps all of it. The
/// block is sound, so that the last level serves where no other does.
fn sum_from(shape: Shape, block: &[u32], opening: u64) -> u64 {
    let offset = shape.offset(opening) as u32;
    let mut levels = levels(shape, block, shape.parity(opening));
    let serving = levels.find(|(_, first, _)| *first <= offset);
    let (count, _, slots) = serving.expect("the last level of a sound half keeps every offset");
    let buckets = &slots[..count as usize];
    let counted = &buckets[buckets.partition_point(|slot| slot[0] < offset)..];
    // The weights of a sound level add up to at most 2^24.
    u64::from(counted.iter().map(|slot| slot[2]).sum::<u32>())
}

/// The levels of a half of a block.
fn levels(shape: Shape, block: &[u32], parity: usize) -> impl Iterator<Item = Level<'_>> {
    let levels = block[half(shape, parity)].chunks_exact(shape.level_length());
    levels.map(|words| {
        let slots = words[layout::LEVEL_HEAD_WORDS..].as_chunks().0;
        (words[layout::COUNT], words[layout::FIRST], slots)
    })
}

/// Where the levels of a half lie within a block.
fn half(shape: Shape, parity: usize) -> Range<usize> {
    let first = shape.level(parity, 0);
    first.start..first.start + shape.levels() * shape.level_length()
}
