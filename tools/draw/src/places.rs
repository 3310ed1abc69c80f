//! Where the words of a book stand that damage and calls aim at.

use std::ops::Range;

use reference::layout::{self, SLOT_WORDS, WEIGHT};
use reference::shape::Shape;
use reference::words::{number, write_number};

use crate::random::Random;

/// One level of one half of one grade.
#[derive(Clone, Copy, Debug)]
pub struct Place {
    pub grade: u32,
    pub parity: usize,
    pub index: usize,
    /// The first word of the half's total.
    total: usize,
    /// The first word of the level.
    pub start: usize,
    slots: usize,
}

impl Place {
    pub fn new(shape: Shape, grade: u32, parity: usize, index: usize) -> Place {
        let block = shape.block(grade).start;
        Place {
            grade,
            parity,
            index,
            total: block + layout::BOOK.total(parity).start,
            start: block + shape.level(parity, index).start,
            slots: shape.n() as usize,
        }
    }

    /// Any level; level 0 and the finer ones, which have most buckets, more often.
    pub fn draw(random: &mut Random, shape: Shape) -> Place {
        let levels = shape.levels() as u64;
        let index = match random.below(4) {
            0 => 0,
            1 => random.below(levels.min(4)),
            _ => random.below(levels),
        };
        let grade = random.below(shape.g().into()) as u32;
        Place::new(shape, grade, random.below(2) as usize, index as usize)
    }

    pub fn count(self) -> usize {
        self.start + layout::COUNT
    }

    /// The word of F.
    pub fn first(self) -> usize {
        self.start + layout::FIRST
    }

    /// The first word of a slot.
    pub fn slot(self, slot: usize) -> usize {
        self.start + layout::LEVEL_HEAD_WORDS + SLOT_WORDS * slot
    }

    /// The words of the half's total.
    pub fn total(self) -> Range<usize> {
        self.total..self.total + layout::BOOK.number_words
    }

    /// How many slots the count calls buckets.
    pub fn used(self, words: &[u32]) -> usize {
        self.slots.min(words[self.count()] as usize)
    }

    /// A slot with a bucket, where there is one, else any.
    pub fn any_slot(self, random: &mut Random, words: &[u32]) -> usize {
        let used = self.used(words);
        let among = if used == 0 { self.slots } else { used };
        self.slot(random.below(among as u64) as usize)
    }

    /// A bucket with another one after it.
    pub fn neighbours(self, random: &mut Random, words: &[u32]) -> Option<(usize, usize)> {
        let pairs = self.used(words).checked_sub(1).filter(|pairs| *pairs > 0)?;
        let low = random.below(pairs as u64) as usize;
        Some((self.slot(low), self.slot(low + 1)))
    }

    pub fn words(self) -> Range<usize> {
        self.start..self.slot(self.slots)
    }
}

/// The words of the weight of a slot that starts here.
pub fn weight(slot: usize) -> Range<usize> {
    slot + WEIGHT..slot + SLOT_WORDS
}

/// Adds to a number, modulo 2^32 for each of its words.
pub fn add(words: &mut [u32], more: u64) {
    let mask = u64::MAX >> (64 - 32 * words.len());
    write_number(number(words).wrapping_add(more) & mask, words);
}
