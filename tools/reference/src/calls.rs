//! The four calls on words of any length and content (document 01, "Calls" and the two lists of
//! refusals with their order). Each call decodes a copy and writes only once nothing can refuse it
//! any more.

use crate::histogram::Histogram;
use crate::layout;
use crate::refusal::{self, when};
use crate::shape::Shape;
use crate::soundness::{block_is_sound, sound_head};
use crate::window::opening;
use crate::words::{decode_block, decode_head, encode_block, encode_head};

/// A call with its numbers, each any number of 32 bits.
#[derive(Clone, Copy, Debug, PartialEq, Eq)]
pub enum Call {
    /// Start a book of this shape.
    Make {
        /// Exponent of the interval.
        k: u32,
        /// Slots of a level.
        n: u32,
        /// Number of the last level.
        m: u32,
        /// Count of grades.
        g: u32,
    },
    /// Move the clock on.
    Clock {
        /// The new clock.
        clock: u32,
    },
    /// Record a delivery.
    Delivery {
        /// Grade.
        grade: u32,
        /// Tick of the delivery.
        stamp: u32,
        /// Decilitres.
        volume: u32,
    },
    /// Ask for a sum (document 01's question).
    Query {
        /// Grade.
        grade: u32,
        /// Ticks that the window covers, the clock's own the last of them.
        window: u32,
    },
}

/// What an accepted call answers.
#[derive(Clone, Copy, Debug, PartialEq, Eq)]
pub enum Answer {
    /// Accepted; there is no number to give.
    Done,
    /// How many buckets a delivery split on all levels (document 02's halvings, request Four).
    Splits(u32),
    /// The sum of a query.
    Sum(u64),
}

/// The answer of a call, or the number of its refusal.
pub type Reply = Result<Answer, u32>;

/// Any call on these words.
pub fn perform(words: &mut [u32], call: Call) -> Reply {
    match call {
        Call::Make { k, n, m, g } => make(words, k, n, m, g).map(|()| Answer::Done),
        Call::Clock { clock: new } => clock(words, new).map(|()| Answer::Done),
        Call::Delivery { grade, stamp, volume } => {
            deliver(words, grade, stamp, volume).map(Answer::Splits)
        }
        Call::Query { grade, window } => query(words, grade, window).map(Answer::Sum),
    }
}

/// Writes an empty book, whatever the words were.
pub fn make(words: &mut [u32], k: u32, n: u32, m: u32, g: u32) -> Result<(), u32> {
    let shape = Shape::new(k, n, m, g).ok_or(refusal::SHAPE)?;
    when(words.len() != shape.book_length(), refusal::LENGTH)?;
    encode_head(shape, 0, words);
    let empty = [0, 1].map(|_| Histogram::empty(shape));
    for grade in 0..shape.g() {
        encode_block(shape, &empty, &mut words[shape.block(grade)]);
    }
    Ok(())
}

/// Moves the clock on. Where it enters another interval, only that one and the one before it are kept.
pub fn clock(words: &mut [u32], new: u32) -> Result<(), u32> {
    let (shape, old) = open(words)?;
    when(new > Shape::CLOCK_MAX, refusal::CLOCK_LIMIT)?;
    when(new < old, refusal::CLOCK_BACK)?;
    let mut blocks = Vec::new();
    for grade in 0..shape.g() {
        blocks.push(sound_block(shape, words, grade)?);
    }
    let entered = shape.interval(new.into()) - shape.interval(old.into());
    for (grade, block) in (0..).zip(&mut blocks) {
        if entered == 1 {
            block[shape.parity(new.into())] = Histogram::empty(shape);
        } else if entered > 1 {
            *block = [0, 1].map(|_| Histogram::empty(shape));
        }
        encode_block(shape, block, &mut words[shape.block(grade)]);
    }
    encode_head(shape, new, words);
    Ok(())
}

/// Records a delivery in the histogram of its stamp's interval; how many buckets it split.
pub fn deliver(words: &mut [u32], grade: u32, stamp: u32, volume: u32) -> Result<u32, u32> {
    let (shape, clock) = open(words)?;
    let tick = u64::from(stamp);
    when(grade >= shape.g(), refusal::GRADE)?;
    when(volume == 0 || volume > Shape::VOLUME_MAX, refusal::VOLUME)?;
    when(stamp > clock, refusal::AHEAD)?;
    when(shape.is_late(clock, stamp), refusal::LATE)?;
    let mut block = sound_block(shape, words, grade)?;
    let histogram = &mut block[shape.parity(tick)];
    let full = histogram.total + u64::from(volume) > shape.capacity();
    when(full, refusal::FULL)?;
    let splits = histogram.insert(shape, shape.offset(tick), volume.into());
    encode_block(shape, &block, &mut words[shape.block(grade)]);
    Ok(splits)
}

/// The sum of a window that ends at the clock; 0 for window 0, once nothing refuses it.
pub fn query(words: &[u32], grade: u32, window: u32) -> Result<u64, u32> {
    let (shape, clock, block) = open_query(words, grade, window)?;
    let opening = opening(clock, window);
    Ok(opening.map_or(0, |opening| sum_from(shape, clock, opening, &block)))
}

/// All refusals of a query; then the shape, the clock and the two histograms of the grade.
pub(crate) fn open_query(
    words: &[u32],
    grade: u32,
    window: u32,
) -> Result<(Shape, u32, [Histogram; 2]), u32> {
    let (shape, clock) = open(words)?;
    when(grade >= shape.g(), refusal::GRADE)?;
    let too_long = u64::from(window) > shape.interval_ticks();
    when(too_long, refusal::WINDOW)?;
    Ok((shape, clock, sound_block(shape, words, grade)?))
}

/// The sum of a window that opens at this tick, in the current interval or in the one before.
pub fn sum_from(shape: Shape, clock: u32, opening: u64, block: &[Histogram; 2]) -> u64 {
    let clock = u64::from(clock);
    let sum = block[shape.parity(opening)].sum_from(shape.offset(opening));
    if shape.interval(opening) == shape.interval(clock) {
        sum
    } else {
        sum + block[shape.parity(clock)].total
    }
}

/// The refusals that clock, delivery and query share: too short for a head, head, length.
fn open(words: &[u32]) -> Result<(Shape, u32), u32> {
    when(words.len() < layout::HEAD_WORDS, refusal::LENGTH)?;
    let (shape, clock) = sound_head(decode_head(words)).ok_or(refusal::HEAD)?;
    when(words.len() != shape.book_length(), refusal::LENGTH)?;
    Ok((shape, clock))
}

/// The two histograms of a grade, where its block is sound.
fn sound_block(shape: Shape, words: &[u32], grade: u32) -> Result<[Histogram; 2], u32> {
    let block = decode_block(shape, &words[shape.block(grade)]);
    when(!block_is_sound(shape, &block), refusal::BLOCK)?;
    Ok(block.map(|raw| raw.histogram()))
}
