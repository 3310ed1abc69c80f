//! How calls follow one another: what is called how often, and how far each call goes.

use crate::random::Random;

/// The pace of a run of calls.
#[derive(Clone, Copy, Debug, PartialEq, Eq)]
pub struct Pace {
    /// Average number of calls from one accepted make to the next.
    pub span: u64,
    /// Calls in a hundred that set the clock.
    pub clocks: u64,
    /// Calls in a hundred that ask.
    pub questions: u64,
    /// One number in so many is at an edge of what is accepted, or beyond it.
    pub edges: u64,
    /// Largest usual volume.
    pub volume: u64,
    /// Most calls name the same grade, so that its block grows.
    pub favourite: u32,
    /// Usual clock steps are at most this part of an interval.
    pub step_divisor: u64,
    /// Only one in so many leaps of the clock into another interval goes ahead.
    pub leap: u64,
    /// Whether large volumes fill intervals that hold a few largest ones.
    pub flood: bool,
}

impl Pace {
    /// Any pace, so that some books grow long in one interval and others pass through many.
    pub fn draw(random: &mut Random) -> Pace {
        Pace {
            span: random.pick(&[40, 150, 600]),
            clocks: random.pick(&[2, 5, 12]),
            questions: 36,
            edges: random.pick(&[10, 16]),
            volume: random.pick(&[1, 4, 30, 199]),
            favourite: random.word(),
            step_divisor: random.pick(&[1, 8, 64]),
            leap: random.pick(&[1, 4, 20]),
            flood: random.one_in(2),
        }
    }

    /// Mostly small deliveries that are accepted, so that a book grows.
    pub fn growing(random: &mut Random) -> Pace {
        Pace {
            span: 400,
            clocks: 15,
            questions: 10,
            edges: 20,
            volume: random.pick(&[2, 8, 8, 30]),
            step_divisor: random.pick(&[2, 2, 16]),
            leap: 12,
            flood: false,
            ..Pace::draw(random)
        }
    }

    /// Calls of every kind with many numbers at an edge.
    pub fn probing(random: &mut Random) -> Pace {
        Pace { span: 40, clocks: 20, questions: 30, edges: 3, leap: 2, ..Pace::draw(random) }
    }
}
