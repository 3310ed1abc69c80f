//! Random calls around a book: mostly accepted ones, many at an edge, and every kind of refused one.

mod delivery;
mod question;

use reference::calls::Call;
use reference::shape::Shape;

use crate::pace::Pace;
use crate::random::Random;
use crate::shapes::{Makes, Numbers};
use crate::view::View;

/// A source of calls, for one book after another.
pub struct Source {
    /// The generator.
    pub random: Random,
    /// What is called how often.
    pub pace: Pace,
    /// The shapes for which a make is accepted.
    pub makes: Makes,
}

impl Source {
    /// A source of any pace; equal seeds give equal calls.
    pub fn new(seed: u64, makes: Makes) -> Source {
        let mut random = Random::new(seed);
        let pace = Pace::draw(&mut random);
        Source { random, pace, makes }
    }

    /// Draws calls on a book.
    pub fn caller<'a>(&'a mut self, view: &'a dyn View) -> Caller<'a> {
        Caller { random: &mut self.random, pace: self.pace, makes: self.makes, view }
    }

    /// Any call on a book.
    pub fn call(&mut self, view: &dyn View) -> Call {
        self.caller(view).call()
    }
}

/// Draws the calls on one book.
pub struct Caller<'a> {
    /// The source's generator.
    pub random: &'a mut Random,
    pace: Pace,
    makes: Makes,
    view: &'a dyn View,
}

impl Caller<'_> {
    /// Any call.
    pub fn call(&mut self) -> Call {
        // Near the limit the clock soon stands still, so that a make comes sooner.
        let near_limit = self.now() > Shape::CLOCK_MAX - self.ticks();
        let span = self.pace.span / if near_limit { 8 } else { 1 };
        if self.random.one_in(span.max(1)) {
            return self.make();
        }
        let questions = 4 + self.pace.questions;
        match self.random.below(100) {
            0..=1 => self.refused_make(),
            2..=3 => self.refused(),
            _ if self.now() == 0 && self.random.one_in(3) => self.first_clock(),
            draw if draw < questions => self.question(),
            draw if draw < questions + self.pace.clocks => self.clock(),
            _ => self.delivery(),
        }
    }

    /// A make that is accepted where it is lent as many words as it needs.
    pub fn make(&mut self) -> Call {
        call_of(self.makes.accepted(self.random, self.shape()))
    }

    /// A make that is refused.
    pub fn refused_make(&mut self) -> Call {
        call_of(self.makes.refused(self.random, self.shape()))
    }

    fn shape(&self) -> Shape {
        self.view.shape()
    }

    /// At most 2^20.
    fn ticks(&self) -> u32 {
        self.shape().interval_ticks() as u32
    }

    /// Any number where a head is damaged, so that what is computed from it wraps.
    fn now(&self) -> u32 {
        self.view.clock()
    }

    fn start_of_interval(&self) -> u32 {
        self.now() - self.now() % self.ticks()
    }

    fn next_interval(&self) -> u32 {
        self.start_of_interval().wrapping_add(self.ticks())
    }

    /// Whether the clock stands at an interval's last tick or at one of its first two.
    fn is_beside_border(&self) -> bool {
        let inside = self.now() - self.start_of_interval();
        inside <= 1 || inside == self.ticks() - 1
    }

    fn oldest(&self) -> u32 {
        self.shape().oldest(self.now())
    }

    /// Whether the next number is at an edge or beyond it.
    fn is_edge(&mut self) -> bool {
        self.random.one_in(self.pace.edges)
    }

    /// Steps on, leaps into another interval, or takes an edge.
    fn clock(&mut self) -> Call {
        // Clocks are few, so more of them are at an edge.
        let clock = if self.random.below(self.pace.edges.max(6)) < 3 {
            self.edge_clock()
        } else if self.is_beside_border() && self.random.one_in(3) {
            // Tick by tick from the end of an interval into the next.
            self.now().wrapping_add(1)
        } else if self.random.one_in(4 * self.pace.leap) {
            self.next_interval().wrapping_sub(1)
        } else if self.random.one_in(4 * self.pace.leap) {
            self.leap()
        } else {
            let largest = u64::from(self.ticks()) / self.pace.step_divisor + 1;
            let step = 1 + self.random.below(largest) as u32;
            self.now().wrapping_add(step)
        };
        Call::Clock { clock }
    }

    /// From the start of a book into its first intervals, so that stamps have room, often next to
    /// the end of one.
    fn first_clock(&mut self) -> Call {
        let ticks = self.ticks();
        let random = &mut *self.random;
        let clock = match random.below(8) {
            0 => 1,
            1..=5 => {
                let border = random.pick(&[ticks, ticks, ticks, 2 * ticks, 3 * ticks]);
                beside(random, border)
            }
            _ => random.between(1, 3 * ticks),
        };
        Call::Clock { clock }
    }

    /// Stays, goes back, meets the ends of intervals, or comes near the limit or above it.
    fn edge_clock(&mut self) -> u32 {
        const MAX: u32 = Shape::CLOCK_MAX;
        let (now, next, ticks) = (self.now(), self.next_interval(), self.ticks());
        let start = self.start_of_interval();
        let random = &mut *self.random;
        let goes_ahead = random.one_in(self.pace.leap);
        match random.below(9) {
            0 if goes_ahead => {
                let near = MAX - random.between(0, 2 * ticks);
                let any = random.between(now, now.max(MAX));
                random.pick(&[MAX, near.max(now), any])
            }
            1 if goes_ahead && random.one_in(2) => now.wrapping_add(1),
            1 if goes_ahead => beside(random, next),
            0..=3 => now,
            4..=5 => {
                let back = random.between(1, ticks);
                let back = random.pick(&[1, 1, back, ticks, now - start + 1, now]);
                now.saturating_sub(back)
            }
            6..=7 => {
                let above = random.between(MAX + 1, u32::MAX);
                random.pick(&[MAX + 1, above, 1 << 31, u32::MAX])
            }
            _ => random.between(0, now),
        }
    }

    /// Into the next interval, or past one or more.
    fn leap(&mut self) -> u32 {
        let (next, ticks) = (self.next_interval(), self.ticks());
        let random = &mut *self.random;
        let inside = random.between(0, ticks - 1);
        let offset = random.pick(&[0, 1, ticks - 1, inside, inside]);
        let skipped = match random.below(20) {
            0..=10 => 0,
            11..=15 => 1,
            _ => random.between(2, 9),
        };
        next.wrapping_add(skipped * ticks).wrapping_add(offset)
    }

    /// Mostly the favourite grade. Edges are rare, because 3 hides most other refusals.
    fn grade(&mut self) -> u32 {
        let g = self.shape().g();
        // Times a block's length this is 0 modulo 2^32.
        let round = 1 << (32 - self.shape().block_length().trailing_zeros());
        let edges = [g, g, g + 1, 256, 65_536, round, g - 1 + round, u32::MAX];
        match self.random.below(4 * self.pace.edges) {
            0 => self.random.pick(&edges),
            draw if draw % 4 == 0 => self.random.below(g.into()) as u32,
            _ => self.pace.favourite % g,
        }
    }

    /// The stamp of what stands in the book or a tick beside it; the clock where nothing does.
    fn near_landmark(&mut self) -> u32 {
        let landmark = self.view.landmark(self.random).unwrap_or(self.now());
        let side = self.random.pick(&[0, 0, 0, 1, u32::MAX]);
        landmark.wrapping_add(side)
    }

    /// A call with several reasons to be refused, of which only the first one counts.
    pub fn refused(&mut self) -> Call {
        let (now, ticks, shape) = (self.now(), self.ticks(), self.shape());
        let late = self.oldest().saturating_sub(1);
        let above = shape.capacity() as u32 + 1;
        let random = &mut *self.random;
        let grade = random.pick(&[0, 0, shape.g(), u32::MAX]);
        match random.below(6) {
            0 => Call::Clock { clock: random.pick(&[0, Shape::CLOCK_MAX + 1, u32::MAX]) },
            1..=2 => Call::Query { grade, window: random.pick(&[0, ticks, ticks + 1, u32::MAX]) },
            _ => Call::Delivery {
                grade,
                stamp: random.pick(&[now, now.wrapping_add(1), late, u32::MAX]),
                volume: random.pick(&[0, 1, Shape::VOLUME_MAX + 1, above, u32::MAX]),
            },
        }
    }
}

/// A tick or one of its neighbours.
pub(crate) fn beside(random: &mut Random, tick: u32) -> u32 {
    random.pick(&[tick.wrapping_sub(1), tick, tick.wrapping_add(1)])
}

/// The make of these numbers.
pub fn call_of([k, n, m, g]: Numbers) -> Call {
    Call::Make { k, n, m, g }
}
