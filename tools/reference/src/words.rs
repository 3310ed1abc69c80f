//! From words to heads, blocks, histograms and levels, and back (document 01, the layout in "The
//! book"). Decoding takes words of any content; whether they are sound is asked of what it gives.

use crate::histogram::{Bucket, Histogram, Level};
use crate::layout::{self, Layout, BOOK};
use crate::shape::Shape;

/// The words of a head as they stand.
#[derive(Clone, Copy, Debug, PartialEq, Eq)]
pub struct RawHead {
    /// k, n, M and g.
    pub shape: [u32; 4],
    /// The clock.
    pub clock: u32,
    /// The words that should be the layout's mark and zeros.
    pub padding: [u32; 3],
}

/// One level as its words say, with all its slots.
#[derive(Clone, Debug, PartialEq, Eq)]
pub struct RawLevel {
    /// The bucket count, which may exceed the slots.
    pub count: u64,
    /// The first kept offset.
    pub first: u64,
    /// All n slots, used or not.
    pub slots: Vec<Bucket>,
}

impl RawLevel {
    fn used_slots(&self) -> usize {
        self.slots.len().min(self.count as usize)
    }

    /// The slots that the count calls buckets.
    pub fn buckets(&self) -> &[Bucket] {
        &self.slots[..self.used_slots()]
    }

    /// The slots after them.
    pub fn unused(&self) -> &[Bucket] {
        &self.slots[self.used_slots()..]
    }
}

/// One histogram as its words say.
#[derive(Clone, Debug, PartialEq, Eq)]
pub struct RawHistogram {
    /// The total.
    pub total: u64,
    /// The levels from 0 to M.
    pub levels: Vec<RawLevel>,
}

impl RawHistogram {
    /// The histogram without its unused slots.
    pub fn histogram(&self) -> Histogram {
        let level = |raw: &RawLevel| Level { first: raw.first, buckets: raw.buckets().to_vec() };
        Histogram { total: self.total, levels: self.levels.iter().map(level).collect() }
    }
}

impl Layout {
    /// Writes a head into the first words.
    pub fn encode_head(self, shape: Shape, clock: u32, words: &mut [u32]) {
        words[layout::SHAPE].copy_from_slice(&shape.numbers());
        words[layout::CLOCK] = clock;
        words[layout::PADDING].copy_from_slice(&self.padding());
    }

    /// Reads one level from exactly its words.
    fn decode_level(self, words: &[u32]) -> RawLevel {
        let (head, slots) = words.split_at(layout::LEVEL_HEAD_WORDS);
        let bucket = |slot: &[u32]| Bucket {
            offset: slot[layout::OFFSET].into(),
            length: slot[layout::LENGTH].into(),
            weight: number(&slot[layout::WEIGHT..]),
        };
        RawLevel {
            count: head[layout::COUNT].into(),
            first: head[layout::FIRST].into(),
            slots: slots.chunks(self.slot_words()).map(bucket).collect(),
        }
    }

    /// Writes one level over exactly its words; slots without a bucket become zero.
    fn encode_level(self, level: &Level, words: &mut [u32]) {
        words.fill(0);
        let (head, slots) = words.split_at_mut(layout::LEVEL_HEAD_WORDS);
        head[layout::COUNT] = word(level.buckets.len() as u64);
        head[layout::FIRST] = word(level.first);
        let places = slots.chunks_mut(self.slot_words());
        for (slot, bucket) in places.zip(&level.buckets) {
            slot[layout::OFFSET] = word(bucket.offset);
            slot[layout::LENGTH] = word(bucket.length);
            write_number(bucket.weight, &mut slot[layout::WEIGHT..]);
        }
    }

    /// Reads the even and the odd histogram from exactly the words of a block.
    pub fn decode_block(self, shape: Shape, words: &[u32]) -> [RawHistogram; 2] {
        let level = |parity, index| self.decode_level(&words[self.level(shape, parity, index)]);
        [0, 1].map(|parity| RawHistogram {
            total: number(&words[self.total(parity)]),
            levels: (0..shape.levels()).map(|i| level(parity, i)).collect(),
        })
    }

    /// Writes both histograms over exactly the words of a block.
    pub fn encode_block(self, shape: Shape, block: &[Histogram; 2], words: &mut [u32]) {
        for (parity, histogram) in block.iter().enumerate() {
            write_number(histogram.total, &mut words[self.total(parity)]);
            for (index, level) in histogram.levels.iter().enumerate() {
                self.encode_level(level, &mut words[self.level(shape, parity, index)]);
            }
        }
    }
}

/// Reads the head from at least as many words as it has, which every layout lays out alike.
pub fn decode_head(words: &[u32]) -> RawHead {
    RawHead {
        shape: words[layout::SHAPE].try_into().expect("four words"),
        clock: words[layout::CLOCK],
        padding: words[layout::PADDING].try_into().expect("three words"),
    }
}

/// Writes the head of a book into the first words.
pub fn encode_head(shape: Shape, clock: u32, words: &mut [u32]) {
    BOOK.encode_head(shape, clock, words);
}

/// Reads a book's block.
pub fn decode_block(shape: Shape, words: &[u32]) -> [RawHistogram; 2] {
    BOOK.decode_block(shape, words)
}

/// Writes a book's block.
pub fn encode_block(shape: Shape, block: &[Histogram; 2], words: &mut [u32]) {
    BOOK.encode_block(shape, block, words);
}

/// The number of one or two words, the low one first.
pub fn number(words: &[u32]) -> u64 {
    let high_first = words.iter().rev();
    high_first.fold(0, |number, word| number << 32 | u64::from(*word))
}

/// Writes a number over one or two words.
pub fn write_number(number: u64, words: &mut [u32]) {
    let mut rest = number;
    for word in words {
        *word = rest as u32;
        rest >>= 32;
    }
    assert_eq!(rest, 0, "{number} does not fit its words");
}

/// Counts, offsets and lengths of a book are below 2^32.
fn word(number: u64) -> u32 {
    u32::try_from(number).expect("a number of a book fits one word")
}
