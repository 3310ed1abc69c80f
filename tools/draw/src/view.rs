//! What calls are drawn around: a book as far as its caller knows it.

use reference::layout;
use reference::ledger::Ledger;
use reference::shape::Shape;
use reference::soundness::sound_head;
use reference::words::{decode_head, number};

use crate::places::Place;
use crate::random::Random;

/// A book's shape and clock, and what stands in it.
pub trait View {
    /// The shape.
    fn shape(&self) -> Shape;

    /// The clock, which damage can set to any number.
    fn clock(&self) -> u32;

    /// Decilitres that a grade still takes in the interval of a stamp; none where there is no such
    /// grade.
    fn room(&self, grade: u32, stamp: u32) -> u64;

    /// The stamp of something that stands in the book, where there is any.
    fn landmark(&self, random: &mut Random) -> Option<u32>;
}

/// A ledger knows the deliveries.
impl View for Ledger {
    fn shape(&self) -> Shape {
        Ledger::shape(self)
    }

    fn clock(&self) -> u32 {
        Ledger::clock(self)
    }

    fn room(&self, grade: u32, stamp: u32) -> u64 {
        let shape = View::shape(self);
        if grade >= shape.g() {
            return 0;
        }
        shape.capacity() - self.interval_total(grade, shape.interval(stamp.into()))
    }

    fn landmark(&self, random: &mut Random) -> Option<u32> {
        let reach = random.pick(&[30, 300]);
        let entries = self.entries();
        let recent = &entries[entries.len().saturating_sub(reach)..];
        (!recent.is_empty()).then(|| recent[random.below(recent.len() as u64) as usize].stamp)
    }
}

/// The words of a book, sound or not.
pub struct Words<'a> {
    shape: Shape,
    words: &'a [u32],
}

impl<'a> Words<'a> {
    /// Words of the shape that their head has, or, where that is damaged, of the one that the book
    /// began with. They are as many as this one needs.
    pub fn new(first: Shape, words: &'a [u32]) -> Words<'a> {
        let head = sound_head(decode_head(words)).map(|(shape, _)| shape);
        let fitting = head.filter(|shape| shape.book_length() == words.len());
        let shape = fitting.unwrap_or(first);
        Words { shape, words }
    }
}

/// Words show where levels have the edges of buckets.
impl View for Words<'_> {
    fn shape(&self) -> Shape {
        self.shape
    }

    fn clock(&self) -> u32 {
        self.words[layout::CLOCK]
    }

    fn room(&self, grade: u32, stamp: u32) -> u64 {
        if grade >= self.shape.g() {
            return 0;
        }
        let block = &self.words[self.shape.block(grade)];
        let total = number(&block[layout::BOOK.total(self.shape.parity(stamp.into()))]);
        self.shape.capacity().saturating_sub(total)
    }

    fn landmark(&self, random: &mut Random) -> Option<u32> {
        let (now, ticks) = (self.clock(), self.shape.interval_ticks() as u32);
        let place = Place::draw(random, self.shape);
        let slot = place.any_slot(random, self.words);
        let edges = [slot + layout::OFFSET, place.first()];
        let offset = self.words[random.pick(&edges)] % ticks;
        // The tick of this offset in the clock's interval, or in the one before.
        let stamp = (now - now % ticks).checked_add(offset)?;
        if stamp <= now {
            Some(stamp)
        } else {
            stamp.checked_sub(ticks)
        }
    }
}
