//! Where a sum came from (document 02, request Six): the level that gave it, how far it can be off, and why
//! no finer level was used.

use crate::calls::{open_query, sum_from};
use crate::window::opening;

/// What stands for the first kept offset, document 01's F, of the next finer level.
#[derive(Clone, Copy, Debug, PartialEq, Eq)]
pub enum Finer {
    /// Window 0, for which no level is asked.
    WindowZero,
    /// Another window, and level 0 was used: there is no finer one.
    LevelZero,
    /// F of the next finer level, in the interval in which the window opens.
    First(u32),
}

/// The ground of a query's sum.
#[derive(Clone, Copy, Debug, PartialEq, Eq)]
pub struct Ground {
    /// The sum, as the query gives it.
    pub sum: u64,
    /// The level that was used, in the interval in which the window opens; 0 for window 0.
    pub level: u32,
    /// The sum and the ledger's differ by at most so many decilitres, on a book grown from a make: none from
    /// level 0, which is exact, else 2^level times k + 1.
    pub limit: u64,
    /// Why no finer level was used.
    pub finer: Finer,
}

impl Ground {
    /// The ground of window 0.
    pub const OF_WINDOW_ZERO: Ground =
        Ground { sum: 0, level: 0, limit: 0, finer: Finer::WindowZero };
}

/// The ground of the sum of a window that ends at the clock. It is refused as a query is.
pub fn ground(words: &[u32], grade: u32, window: u32) -> Result<Ground, u32> {
    let (shape, clock, block) = open_query(words, grade, window)?;
    let Some(opening) = opening(clock, window) else {
        return Ok(Ground::OF_WINDOW_ZERO);
    };
    let histogram = &block[shape.parity(opening)];
    let serving = histogram.serving_level(shape.offset(opening));
    let level = serving.expect("a sound histogram serves every opening");
    let (limit, finer) = match level.checked_sub(1) {
        None => (0, Finer::LevelZero),
        Some(finer) => {
            let first = u32::try_from(histogram.levels[finer].first);
            let first = first.expect("an offset fits one word");
            (u64::from(shape.k() + 1) << level, Finer::First(first))
        }
    };
    Ok(Ground { sum: sum_from(shape, clock, opening, &block), level: level as u32, limit, finer })
}
