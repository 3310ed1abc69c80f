//! A book to begin with: its kind, its words and how they were damaged.

use std::fmt::{self, Display, Formatter};

use reference::calls::{perform, Call};
use reference::histogram::Histogram;
use reference::layout::HEAD_WORDS;
use reference::shape::Shape;
use reference::words::{encode_block, encode_head};

use crate::calls::{beside, call_of, Source};
use crate::pace::Pace;
use crate::random::Random;
use crate::shapes::{self, quick_volume, Makes};
use crate::view::Words;
use crate::{damage, sound};

/// Where a book comes from.
#[derive(Clone, Copy, Debug, PartialEq, Eq)]
pub enum Kind {
    /// A make and further calls made it.
    Grown,
    /// Sound, drawn level by level.
    Built,
    /// One of these, damaged.
    Damaged(&'static str),
}

impl Display for Kind {
    fn fmt(&self, f: &mut Formatter<'_>) -> fmt::Result {
        f.write_str(match self {
            Kind::Grown => "grown",
            Kind::Built => "built",
            Kind::Damaged(name) => name,
        })
    }
}

/// A book before the compared calls.
pub struct Book {
    /// Where it comes from.
    pub kind: Kind,
    /// The shape that it has or had.
    pub shape: Shape,
    /// As many words as the shape needs.
    pub words: Vec<u32>,
}

/// Books with more words are fed in memory, not call by call.
const CALL_BY_CALL: usize = 4000;

impl Book {
    /// One of each kind in turn, damaged ones twice.
    pub fn draw(random: &mut Random, index: u64) -> Book {
        let shape = shapes::draw(random);
        let (kind, words) = match index % 4 {
            0 => (Kind::Grown, grown(random, shape)),
            1 => (Kind::Built, sound::book(random, shape)),
            _ => {
                let mut words = if random.one_in(2) {
                    grown(random, shape)
                } else {
                    sound::book(random, shape)
                };
                let name = damage::damage(random, shape, &mut words);
                (Kind::Damaged(name), words)
            }
        };
        Book { kind, shape, words }
    }
}

/// A book that calls made, some of them refused.
fn grown(random: &mut Random, shape: Shape) -> Vec<u32> {
    if shape.book_length() > CALL_BY_CALL {
        return fed(random, shape);
    }
    let mut words: Vec<u32> = (0..shape.book_length()).map(|_| random.word()).collect();
    perform(&mut words, call_of(shape.numbers())).expect("the length is right");
    let mut source = Source {
        pace: Pace::growing(random),
        random: Random::new(random.bits()),
        makes: Makes::Length(words.len()),
    };
    for _ in 0..random.below(60) {
        let call = source.call(&Words::new(shape, &words));
        // Refused calls are part of a run.
        let _ = perform(&mut words, call);
    }
    words
}

/// What a make, a clock and many deliveries leave, encoded once.
fn fed(random: &mut Random, shape: Shape) -> Vec<u32> {
    let mut words = vec![0; shape.book_length()];
    let ticks = shape.interval_ticks() as u32;
    let clock = if random.one_in(3) {
        let border = random.pick(&[ticks, 2 * ticks, 3 * ticks]);
        beside(random, border)
    } else {
        random.between(0, 3 * ticks)
    };
    encode_head(shape, clock, &mut words);
    let usual = 1 + random.below(quick_volume(shape).min(40));
    for grade in 0..shape.g() {
        let mut block = [0, 1].map(|_| Histogram::empty(shape));
        for _ in 0..random.below(1 + 2 * u64::from(shape.n())) {
            let stamp = stamp(random, shape, clock);
            let histogram = &mut block[shape.parity(stamp)];
            let room = shape.capacity() - histogram.total;
            let volume = (1 + random.below(usual)).min(room);
            histogram.insert(shape, shape.offset(stamp), volume);
        }
        encode_block(shape, &block, &mut words[shape.block(grade)]);
    }
    words
}

/// Not late; half of the stamps come in bursts of a few hundred ticks.
fn stamp(random: &mut Random, shape: Shape, clock: u32) -> u64 {
    let reach = u64::from(clock - shape.oldest(clock)) + 1;
    let back = if random.one_in(2) {
        random.below(reach)
    } else {
        (reach / 3 + random.below(300)) % reach
    };
    u64::from(clock) - back
}

/// How many words a call is lent, of a book with `exact` and `more` after it: mostly those of the
/// book, else fewer, more or none.
pub fn lent(random: &mut Random, call: Call, exact: usize, more: usize) -> usize {
    let often = match call {
        Call::Make { .. } => 4,
        _ => 14,
    };
    if random.one_in(often) {
        other_length(random, exact, more)
    } else {
        exact
    }
}

/// Fewer words than the book's, more, or none; mostly not as many.
pub fn other_length(random: &mut Random, exact: usize, more: usize) -> usize {
    match random.below(8) {
        0 => 0,
        1 => random.below(HEAD_WORDS as u64 + 1) as usize,
        2 => exact - 1,
        3 => exact - 3,
        4 => exact + 1,
        5 => exact + random.below(more as u64 + 1) as usize,
        6 => exact - HEAD_WORDS,
        _ => random.below(exact as u64) as usize,
    }
}
