//! What is compared with the second program: the static library, or a stand-in.

use litres::Refused;
use reference::calls::{self, Answer, Call, Reply};
use reference::ground::{self, Finer, Ground};
use reference::merge::{self, Named};
use reference::replay;

/// What a replay is lent.
pub struct Lent<'l> {
    /// The book.
    pub book: &'l mut [u32],
    /// The trace.
    pub trace: &'l [u32],
    /// Which day of it.
    pub day: u32,
    /// Where the answers go.
    pub answers: &'l mut [u32],
}

impl Lent<'_> {
    /// Has a function of the four replay the day.
    pub fn by<R>(self, replay: impl FnOnce(&mut [u32], &[u32], u32, &mut [u32]) -> R) -> R {
        replay(self.book, self.trace, self.day, self.answers)
    }
}

/// An implementation of all that is compared. What it does not name is the second program's own, so that a
/// wrong stand-in names only what is wrong.
pub trait Implementation {
    /// Performs a call.
    fn perform(&self, book: &mut [u32], call: Call) -> Reply {
        calls::perform(book, call)
    }

    /// The ground of the sum of a grade and a window.
    fn ground(&self, book: &[u32], grade: u32, window: u32) -> Result<Ground, u32> {
        ground::ground(book, grade, window)
    }

    /// The part of a trace that is this day.
    fn find_day<'t>(&self, trace: &'t [u32], day: u32) -> Result<&'t [u32], u32> {
        replay::find_day(trace, day)
    }

    /// Replays a day.
    fn replay(&self, lent: Lent) -> Result<(), u32> {
        lent.by(replay::replay).map(drop)
    }

    /// Writes a merged day of two.
    fn merge(&self, named: [Named; 2], output: &mut [u32]) -> Result<(), u32> {
        merge::merge(named, output)
    }
}

/// The static library, through its Rust wrapper.
pub struct Archive;

impl Implementation for Archive {
    fn perform(&self, book: &mut [u32], call: Call) -> Reply {
        let done = |()| Answer::Done;
        match call {
            Call::Make { k, n, m, g } => litres::make(book, k, n, m, g).map(done),
            Call::Clock { clock } => litres::clock(book, clock).map(done),
            Call::Delivery { grade, stamp, volume } => {
                litres::delivery(book, grade, stamp, volume).map(Answer::Splits)
            }
            Call::Query { grade, window } => litres::query(book, grade, window).map(Answer::Sum),
        }
        .map_err(number)
    }

    fn ground(&self, book: &[u32], grade: u32, window: u32) -> Result<Ground, u32> {
        let ground = litres::ground(book, grade, window).map_err(number)?;
        Ok(Ground {
            sum: ground.sum,
            level: ground.level,
            limit: ground.limit,
            finer: match ground.finer {
                litres::Finer::WindowZero => Finer::WindowZero,
                litres::Finer::LevelZero => Finer::LevelZero,
                litres::Finer::First(first) => Finer::First(first),
            },
        })
    }

    fn find_day<'t>(&self, trace: &'t [u32], day: u32) -> Result<&'t [u32], u32> {
        litres::find_day(trace, day).map_err(number)
    }

    fn replay(&self, lent: Lent) -> Result<(), u32> {
        lent.by(litres::replay).map_err(number)
    }

    fn merge(&self, [first, second]: [Named; 2], output: &mut [u32]) -> Result<(), u32> {
        litres::merge(first.trace, first.day, second.trace, second.day, output).map_err(number)
    }
}

fn number(Refused(number): Refused) -> u32 {
    number
}
