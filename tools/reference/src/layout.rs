//! How many words each part of a book, of a trace and of an answer has, and where they stand (document
//! 01, "The book"; document 02, request Two). Nothing else in this crate counts them.

use std::ops::Range;

use crate::shape::Shape;

/// What two layouts of a book differ in. It is a value, so that books of several layouts can stand
/// side by side.
#[derive(Clone, Copy, Debug, PartialEq, Eq)]
pub struct Layout {
    /// Words of a total, of a weight and of a sum, the low one first.
    pub number_words: usize,
    /// The sixth word of a head.
    pub mark: u32,
}

/// The layout of books. The constants below that depend on a layout are this one's.
pub const BOOK: Layout = Layout { number_words: 1, mark: 0 };

/// Words of the head.
pub const HEAD_WORDS: usize = 8;
/// The words of k, n, M and g in the head.
pub const SHAPE: Range<usize> = 0..4;
/// The word of the clock in the head.
pub const CLOCK: usize = 4;
/// The words of the head after the clock: the mark, then zeros.
pub const PADDING: Range<usize> = 5..HEAD_WORDS;

/// The word of the bucket count in a level.
pub const COUNT: usize = 0;
/// The word of the first kept offset, document 01's F, in a level.
pub const FIRST: usize = 1;
/// Words of a level before its slots.
pub const LEVEL_HEAD_WORDS: usize = 2;

/// The word of the offset in a slot, which is document 01's place.
pub const OFFSET: usize = 0;
/// The word of the length in a slot.
pub const LENGTH: usize = 1;
/// The first word of the weight in a slot.
pub const WEIGHT: usize = 2;
/// Words of a slot.
pub const SLOT_WORDS: usize = BOOK.slot_words();

/// The word of the refusal's number, or 0, in the answer to a record.
pub const NUMBER: usize = 0;
/// The first word of the sum, or 0, in the answer to a record.
pub const SUM: usize = 1;
/// Words of the answer to a record.
pub const ANSWER_WORDS: usize = BOOK.answer_words();

/// Most days of a trace.
pub const DAYS_MAX: u32 = 64;
/// Words before the pairs: the count of days.
pub const COUNT_WORDS: usize = 1;
/// Words of a pair: the offset and the length of a day.
pub const PAIR_WORDS: usize = 2;
/// Words of a record: its kind, then the numbers of its call, then zeros.
pub const RECORD_WORDS: usize = 4;
/// The kind of a record that sets the clock.
pub const KIND_CLOCK: u32 = 1;
/// The kind of a record that delivers.
pub const KIND_DELIVERY: u32 = 2;
/// The kind of a record that asks.
pub const KIND_QUERY: u32 = 3;

impl Layout {
    /// The words of a sound head after its clock.
    pub const fn padding(self) -> [u32; 3] {
        [self.mark, 0, 0]
    }

    /// The words of a total within a block.
    pub const fn total(self, parity: usize) -> Range<usize> {
        parity * self.number_words..(parity + 1) * self.number_words
    }

    /// Words of a slot.
    pub const fn slot_words(self) -> usize {
        WEIGHT + self.number_words
    }

    /// Words of a level.
    pub const fn level_words(self, shape: Shape) -> usize {
        LEVEL_HEAD_WORDS + self.slot_words() * shape.n() as usize
    }

    /// Words of a block before its levels: one total for each parity.
    pub const fn block_head_words(self) -> usize {
        2 * self.number_words
    }

    /// Words of a grade's block.
    pub const fn block_words(self, shape: Shape) -> usize {
        self.block_head_words() + 2 * shape.levels() * self.level_words(shape)
    }

    /// Words of the whole book.
    pub const fn book_words(self, shape: Shape) -> usize {
        HEAD_WORDS + shape.g() as usize * self.block_words(shape)
    }

    /// The words of a grade's block within the book.
    pub const fn block(self, shape: Shape, grade: u32) -> Range<usize> {
        let start = HEAD_WORDS + grade as usize * self.block_words(shape);
        start..start + self.block_words(shape)
    }

    /// The words of one level within a block.
    pub const fn level(self, shape: Shape, parity: usize, index: usize) -> Range<usize> {
        let before = parity * shape.levels() + index;
        let start = self.block_head_words() + before * self.level_words(shape);
        start..start + self.level_words(shape)
    }

    /// Words of the answer to a record.
    pub const fn answer_words(self) -> usize {
        SUM + self.number_words
    }
}
