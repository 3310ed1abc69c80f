//! Where a sum comes from.

use crate::archive::GROUND_LEN;

/// Why no finer level gave a sum.
#[derive(Clone, Copy, Debug, PartialEq, Eq, Hash)]
pub enum Finer {
    /// Window 0, for which no level is read.
    WindowZero,
    /// Another window, and level 0 gave the sum. No level is finer.
    LevelZero,
    /// F of the next finer level: the first tick that it keeps, counted from the start of the interval in
    /// which the window opens. The window opens before it.
    First(u32),
}

/// Where a sum comes from; `include/litres.h` says more.
#[derive(Clone, Copy, Debug, PartialEq, Eq, Hash)]
pub struct Ground {
    /// The sum, in decilitres, as [`query`](crate::query) gives it.
    pub sum: u64,
    /// The level that gave it; 0 for window 0.
    pub level: u32,
    /// By how many decilitres the sum is off at most, on a book that only the library's calls have written
    /// since it was made, each given all its words: 0 on level 0, else 2^level * (k + 1).
    pub limit: u64,
    /// Why no finer level gave it.
    pub finer: Finer,
}

impl Ground {
    /// The ground whose numbers C gets at these places.
    pub(crate) fn of([sum, level, limit, case, first]: [u64; GROUND_LEN]) -> Ground {
        Ground {
            sum,
            level: word(level),
            limit,
            finer: match case {
                0 => Finer::WindowZero,
                1 => Finer::LevelZero,
                2 => Finer::First(word(first)),
                _ => unreachable!("the library has no case {case}"),
            },
        }
    }
}

/// Levels and ticks of an interval are far below 2^32.
fn word(number: u64) -> u32 {
    u32::try_from(number).expect("a level or a tick of an interval")
}
