//! The exact ledger (document 01, "The ledger"). It is fed the calls and the number of words that
//! each one borrows, never a word of a book, so that refusals 7 and 11 are unknown to it. It has no
//! buckets, so it answers a delivery without a count of splits.

use std::collections::BTreeSet;

use crate::calls::{Answer, Call, Reply};
use crate::ground::Ground;
use crate::refusal::{self, when};
use crate::shape::Shape;
use crate::window::opening;

/// An accepted delivery.
#[derive(Clone, Copy, Debug, PartialEq, Eq)]
pub struct Entry {
    /// Grade.
    pub grade: u32,
    /// Tick of the delivery.
    pub stamp: u32,
    /// Decilitres.
    pub volume: u32,
}

/// A shape, a clock and every delivery accepted since the make.
#[derive(Clone, Debug, PartialEq, Eq)]
pub struct Ledger {
    shape: Shape,
    clock: u32,
    entries: Vec<Entry>,
}

impl Ledger {
    /// The ledger that an accepted make of this shape leaves.
    pub fn new(shape: Shape) -> Ledger {
        Ledger { shape, clock: 0, entries: Vec::new() }
    }

    /// The shape of the last accepted make.
    pub fn shape(&self) -> Shape {
        self.shape
    }

    /// The clock.
    pub fn clock(&self) -> u32 {
        self.clock
    }

    /// The deliveries accepted since the last accepted make.
    pub fn entries(&self) -> &[Entry] {
        &self.entries
    }

    /// One call that borrows so many words.
    pub fn perform(&mut self, call: Call, borrowed: usize) -> Reply {
        let shape = match call {
            Call::Make { k, n, m, g } => Shape::new(k, n, m, g).ok_or(refusal::SHAPE)?,
            _ => self.shape,
        };
        // No shape asks for so few words that a missing head would need its own test.
        when(borrowed != shape.book_length(), refusal::LENGTH)?;
        match call {
            Call::Make { .. } => *self = Ledger::new(shape),
            Call::Clock { clock } => {
                when(clock > Shape::CLOCK_MAX, refusal::CLOCK_LIMIT)?;
                when(clock < self.clock, refusal::CLOCK_BACK)?;
                self.clock = clock;
            }
            Call::Delivery { grade, stamp, volume } => {
                let entry = Entry { grade, stamp, volume };
                self.check_delivery(entry)?;
                self.entries.push(entry);
            }
            Call::Query { grade, window } => {
                when(grade >= shape.g(), refusal::GRADE)?;
                let too_long = u64::from(window) > shape.interval_ticks();
                when(too_long, refusal::WINDOW)?;
                return Ok(Answer::Sum(self.window_sum(grade, window)));
            }
        }
        Ok(Answer::Done)
    }

    fn check_delivery(&self, entry: Entry) -> Result<(), u32> {
        let interval = self.shape.interval(entry.stamp.into());
        when(entry.grade >= self.shape.g(), refusal::GRADE)?;
        when(entry.volume == 0, refusal::VOLUME)?;
        when(entry.volume > Shape::VOLUME_MAX, refusal::VOLUME)?;
        when(entry.stamp > self.clock, refusal::AHEAD)?;
        when(self.shape.is_late(self.clock, entry.stamp), refusal::LATE)?;
        let total = self.interval_total(entry.grade, interval);
        let full = total + u64::from(entry.volume) > self.shape.capacity();
        when(full, refusal::FULL)
    }

    /// Whether a stamp lies in the window: from its opening up to the clock.
    pub fn covers(&self, window: u32, stamp: u32) -> bool {
        let first = opening(self.clock, window);
        first.is_some_and(|first| first <= stamp.into()) && stamp <= self.clock
    }

    /// All that a grade has received in an interval.
    pub fn interval_total(&self, grade: u32, interval: u64) -> u64 {
        self.sum(|e| e.grade == grade && self.shape.interval(e.stamp.into()) == interval)
    }

    /// All that a grade has received in a window.
    pub fn window_sum(&self, grade: u32, window: u32) -> u64 {
        self.sum(|e| e.grade == grade && self.covers(window, e.stamp))
    }

    /// Whether a book may answer this where the exact sum is that: the bound of document 01's method, which
    /// says nothing where n is at most k + 1.
    pub fn admits(&self, exact: u64, answer: u64) -> bool {
        let (k, n) = (u64::from(self.shape.k()), u64::from(self.shape.n()));
        n <= k + 1 || answer.abs_diff(exact) * (n - k - 1) <= 2 * (k + 1) * exact
    }

    /// Whether a ground of a grade and a window is within its own limit of the exact sum, which document 02,
    /// request Six, promises for every n.
    pub fn admits_ground(&self, grade: u32, window: u32, ground: Ground) -> bool {
        let exact = self.window_sum(grade, window);
        ground.sum.abs_diff(exact) <= ground.limit
    }

    /// How many different stamps a grade's deliveries bear from the opening of a window on, in the interval
    /// in which it opens (document 02, request Seven). Window 0 opens nowhere.
    pub fn different_stamps(&self, grade: u32, window: u32) -> usize {
        let Some(opening) = opening(self.clock, window) else {
            return 0;
        };
        let interval = self.shape.interval(opening);
        let is_counted = |e: &&Entry| {
            let stamp = u64::from(e.stamp);
            e.grade == grade && stamp >= opening && self.shape.interval(stamp) == interval
        };
        let counted = self.entries.iter().filter(is_counted);
        counted.map(|e| e.stamp).collect::<BTreeSet<u32>>().len()
    }

    /// Whether at most n different stamps count for a grade and a window, so that document 02, request Seven,
    /// promises the exact sum.
    pub fn is_quiet(&self, grade: u32, window: u32) -> bool {
        self.different_stamps(grade, window) <= self.shape.n() as usize
    }

    /// Whether a window has at most n ticks, so that document 02, request Seven, promises the exact sum
    /// whatever was delivered.
    pub fn is_short(&self, window: u32) -> bool {
        window <= self.shape.n()
    }

    /// Whether document 02, request Seven, promises the exact sum of a grade and a window.
    pub fn promises_exact(&self, grade: u32, window: u32) -> bool {
        self.is_quiet(grade, window) || self.is_short(window)
    }

    /// Whether document 02, request Seven, lets a book answer a question of a grade and a window with this sum:
    /// only with the exact one where that is promised.
    pub fn admits_exact(&self, grade: u32, window: u32, answer: u64) -> bool {
        !self.promises_exact(grade, window) || answer == self.window_sum(grade, window)
    }

    fn sum(&self, counted: impl Fn(&Entry) -> bool) -> u64 {
        let volume = |e: &Entry| if counted(e) { u64::from(e.volume) } else { 0 };
        self.entries.iter().map(volume).sum()
    }
}
