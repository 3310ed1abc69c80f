//! The refusal numbers (document 01, "Turned down by the input" and "Turned down by the state"; for
//! replays document 02, request Two, for merges request Five).

use std::ops::RangeInclusive;

/// The shape is outside its limits.
pub const SHAPE: u32 = 1;
/// Fewer words than a head has, or another length than the shape's.
pub const LENGTH: u32 = 2;
/// The shape has no such grade.
pub const GRADE: u32 = 3;
/// The volume is 0 or too large.
pub const VOLUME: u32 = 4;
/// The window is longer than an interval.
pub const WINDOW: u32 = 5;
/// The new clock is past the last allowed tick.
pub const CLOCK_LIMIT: u32 = 6;
/// The head is unsound.
pub const HEAD: u32 = 7;
/// The stamp is ahead of the clock.
pub const AHEAD: u32 = 8;
/// The stamp is an interval or more behind the clock.
pub const LATE: u32 = 9;
/// The new clock is behind the clock.
pub const CLOCK_BACK: u32 = 10;
/// A block that the call inspects is unsound.
pub const BLOCK: u32 = 11;
/// The interval cannot keep this volume as well.
pub const FULL: u32 = 12;
/// The trace breaks its layout or has an unsound record.
pub const TRACE: u32 = 13;
/// The trace has no such day.
pub const DAY: u32 = 14;
/// The answers need more words.
pub const ROOM: u32 = 15;
/// A day that is to be merged opens without a clock, or its clocks fall or pass the last allowed tick.
pub const ORDER: u32 = 16;
/// The output of a merge is not as long as its two days together.
pub const OUTPUT: u32 = 17;

/// Every refusal of a call on a book.
pub const CALLS: RangeInclusive<u32> = SHAPE..=FULL;
/// Every refusal of a whole replay.
pub const REPLAYS: RangeInclusive<u32> = TRACE..=ROOM;
/// Every refusal of a merge, in its order.
pub const MERGES: [u32; 4] = [TRACE, DAY, ORDER, OUTPUT];

/// Refuses with `number` where `condition` holds.
pub fn when(condition: bool, number: u32) -> Result<(), u32> {
    if condition {
        Err(number)
    } else {
        Ok(())
    }
}
