//! The shape, its limits and the lengths that follow from it (document 01, "Words and limits").

use std::ops::Range;

use crate::layout::BOOK;
use crate::window::opening;

/// A shape within its limits.
#[derive(Clone, Copy, Debug, PartialEq, Eq)]
pub struct Shape {
    k: u32,
    n: u32,
    m: u32,
    g: u32,
}

impl Shape {
    /// Least exponent of the interval.
    pub const K_MIN: u32 = 2;
    /// Greatest exponent of the interval.
    pub const K_MAX: u32 = 20;
    /// Fewest slots of a level.
    pub const N_MIN: u32 = 2;
    /// Most slots of a level.
    pub const N_MAX: u32 = 1024;
    /// Least number of the last level.
    pub const M_MIN: u32 = 1;
    /// Greatest number of the last level.
    pub const M_MAX: u32 = 24;
    /// Fewest grades.
    pub const G_MIN: u32 = 1;
    /// Most grades.
    pub const G_MAX: u32 = 8;
    /// The least and the greatest k, n, M and g.
    pub const LIMITS: [[u32; 2]; 4] = [
        [Self::K_MIN, Self::K_MAX],
        [Self::N_MIN, Self::N_MAX],
        [Self::M_MIN, Self::M_MAX],
        [Self::G_MIN, Self::G_MAX],
    ];
    /// Latest tick that the clock can show.
    pub const CLOCK_MAX: u32 = 2_000_000_000;
    /// Largest volume of one delivery.
    pub const VOLUME_MAX: u32 = 65_535;

    /// The shape of these four numbers, or nothing where one is outside its limits.
    pub fn new(k: u32, n: u32, m: u32, g: u32) -> Option<Shape> {
        let mut limits = [k, n, m, g].into_iter().zip(Self::LIMITS);
        let within = limits.all(|(number, [least, most])| (least..=most).contains(&number));
        within.then_some(Shape { k, n, m, g })
    }

    /// k, n, M and g.
    pub fn numbers(self) -> [u32; 4] {
        [self.k, self.n, self.m, self.g]
    }

    /// The exponent of the interval.
    pub fn k(self) -> u32 {
        self.k
    }

    /// The slots of a level.
    pub const fn n(self) -> u32 {
        self.n
    }

    /// The number of the last level.
    pub fn m(self) -> u32 {
        self.m
    }

    /// The count of grades.
    pub const fn g(self) -> u32 {
        self.g
    }

    /// Ticks of an interval.
    pub fn interval_ticks(self) -> u64 {
        1 << self.k
    }

    /// Decilitres that one grade keeps in one interval.
    pub fn capacity(self) -> u64 {
        1 << self.m
    }

    /// The interval in which a tick lies.
    pub fn interval(self, tick: u64) -> u64 {
        tick / self.interval_ticks()
    }

    /// The place of a tick within its interval.
    pub fn offset(self, tick: u64) -> u64 {
        tick % self.interval_ticks()
    }

    /// Whether a stamp is late: an interval or more behind the clock, where no window reaches.
    pub fn is_late(self, clock: u32, stamp: u32) -> bool {
        u64::from(stamp) + self.interval_ticks() <= u64::from(clock)
    }

    /// The oldest stamp that is not late, at which the longest window opens.
    pub fn oldest(self, clock: u32) -> u32 {
        let oldest = opening(clock, 1 << self.k);
        oldest.expect("the longest window covers the clock") as u32
    }

    /// Which of a block's two histograms serves the interval of a tick.
    pub fn parity(self, tick: u64) -> usize {
        usize::from(self.interval(tick) % 2 == 1)
    }

    /// Levels of a histogram, level 0 included.
    pub const fn levels(self) -> usize {
        self.m as usize + 1
    }

    /// Words of a level.
    pub fn level_length(self) -> usize {
        BOOK.level_words(self)
    }

    /// Words of a grade's block.
    pub fn block_length(self) -> usize {
        BOOK.block_words(self)
    }

    /// Words of the whole book.
    pub fn book_length(self) -> usize {
        BOOK.book_words(self)
    }

    /// The words of a grade's block within the book.
    pub fn block(self, grade: u32) -> Range<usize> {
        BOOK.block(self, grade)
    }

    /// The words of one level within a block.
    pub fn level(self, parity: usize, index: usize) -> Range<usize> {
        BOOK.level(self, parity, index)
    }
}
