//! One interval of one grade: buckets, levels, the unit steps and the sum from an opening
//! (document 01, "The book" for the empty half, "Calls" for the steps of a delivery and the sum of
//! a question).

use crate::shape::Shape;

/// The weight of `length` ticks from `offset` on.
#[derive(Clone, Copy, Debug, PartialEq, Eq)]
pub struct Bucket {
    /// First tick, counted from the interval's start.
    pub offset: u64,
    /// Number of ticks.
    pub length: u64,
    /// Decilitres.
    pub weight: u64,
}

impl Bucket {
    /// The tick after the last one.
    pub fn end(self) -> u64 {
        self.offset + self.length
    }

    /// Whether the bucket spans this offset.
    pub fn covers(self, offset: u64) -> bool {
        self.offset <= offset && offset < self.end()
    }

    /// Two buckets of half the length and half the weight (document 01's halving).
    pub fn split(self) -> [Bucket; 2] {
        let (length, weight) = (self.length / 2, self.weight / 2);
        [self.offset, self.offset + length].map(|offset| Bucket { offset, length, weight })
    }
}

/// One level: its buckets by rising offset, and the first offset that it still keeps (document
/// 01's F).
#[derive(Clone, Debug, PartialEq, Eq)]
pub struct Level {
    /// The first kept offset.
    pub first: u64,
    /// The buckets in use.
    pub buckets: Vec<Bucket>,
}

impl Level {
    /// The level of this index before any delivery.
    pub fn empty(shape: Shape, index: usize) -> Level {
        let whole = Bucket { offset: 0, length: shape.interval_ticks(), weight: 0 };
        Level { first: 0, buckets: if index == 0 { vec![] } else { vec![whole] } }
    }

    /// So many decilitres into the level of this index, one after another; how many of them split a
    /// bucket.
    pub fn insert(&mut self, shape: Shape, index: usize, offset: u64, volume: u64) -> u32 {
        let mut splits = 0;
        for _ in 0..volume {
            splits += u32::from(self.insert_unit(shape, index, offset));
        }
        splits
    }

    /// One decilitre into the level of this index; whether it split a bucket.
    pub fn insert_unit(&mut self, shape: Shape, index: usize, offset: u64) -> bool {
        if offset < self.first {
            return false;
        }
        if index == 0 {
            self.insert_unit_at_tick(shape, offset);
            return false;
        }
        self.insert_unit_in_span(shape, index, offset)
    }

    /// Level 0: a bucket for every tick.
    fn insert_unit_at_tick(&mut self, shape: Shape, offset: u64) {
        match self.buckets.iter().position(|b| b.offset == offset) {
            Some(slot) => self.buckets[slot].weight += 1,
            None => {
                let lower = self.buckets.iter().filter(|b| b.offset < offset).count();
                let made = Bucket { offset, length: 1, weight: 1 };
                self.buckets.insert(lower, made);
            }
        }
        if self.buckets.len() > shape.n() as usize {
            let evicted = self.buckets.remove(0);
            self.first = evicted.offset + 1;
        }
    }

    /// Level i from 1 on: a bucket splits on reaching the weight 2^(i+1). Whether it did.
    fn insert_unit_in_span(&mut self, shape: Shape, index: usize, offset: u64) -> bool {
        // The buckets of a sound level span every offset from `first` on.
        let covering = self.buckets.iter().position(|b| b.covers(offset));
        let slot = covering.expect("a sound level covers each offset that it keeps");
        let bucket = &mut self.buckets[slot];
        bucket.weight += 1;
        let splits = bucket.weight == 2 << index && bucket.length > 1;
        if splits {
            let parts = bucket.split();
            self.buckets.splice(slot..=slot, parts);
        }
        if self.buckets.len() > shape.n() as usize {
            self.buckets.remove(0);
            self.first = self.buckets[0].offset;
        }
        splits
    }

    /// The weight of all buckets that start at the opening or after it. A bucket that the opening
    /// cuts does not count.
    pub fn sum_from(&self, opening: u64) -> u64 {
        let counted = self.buckets.iter().filter(|b| b.offset >= opening);
        counted.map(|b| b.weight).sum()
    }
}

/// The deliveries of one grade in one interval (document 01's half): their total and every level.
#[derive(Clone, Debug, PartialEq, Eq)]
pub struct Histogram {
    /// All accepted decilitres, whatever the levels still keep.
    pub total: u64,
    /// The levels from 0 to M.
    pub levels: Vec<Level>,
}

impl Histogram {
    /// The histogram of an interval without deliveries.
    pub fn empty(shape: Shape) -> Histogram {
        let levels = 0..shape.levels();
        Histogram { total: 0, levels: levels.map(|index| Level::empty(shape, index)).collect() }
    }

    /// A whole volume into every level; how many buckets were split on all of them.
    pub fn insert(&mut self, shape: Shape, offset: u64, volume: u64) -> u32 {
        self.total += volume;
        let levels = self.levels.iter_mut().enumerate();
        levels.map(|(index, level)| level.insert(shape, index, offset, volume)).sum()
    }

    /// The finest level that still keeps every offset from the opening on. Coarser levels can have
    /// evicted more than finer ones, so the search goes up from level 0.
    pub fn serving_level(&self, opening: u64) -> Option<usize> {
        self.levels.iter().position(|level| level.first <= opening)
    }

    /// The sum from an opening on, from the serving level.
    pub fn sum_from(&self, opening: u64) -> u64 {
        // Two buckets on level M would outweigh any allowed total, so it has evicted nothing.
        let serving = self.serving_level(opening);
        let index = serving.expect("the last level of a sound histogram keeps every offset");
        self.levels[index].sum_from(opening)
    }
}
