//! Which stamps a window covers (document 02, request One): a window of w covers the last w stamps, of
//! which the clock is the last. No other place knows how a window opens.

/// The first stamp that a window covers, which is 0 where the window exceeds the clock. Nothing for
/// window 0, which covers no stamp.
pub fn opening(clock: u32, window: u32) -> Option<u64> {
    let end = u64::from(clock) + 1;
    (window > 0).then(|| end.saturating_sub(window.into()))
}

/// The window that opens at a stamp. Nothing where the stamp is ahead of the clock, or where no
/// window is so long.
pub fn window_from(clock: u32, opening: u32) -> Option<u32> {
    clock.checked_sub(opening)?.checked_add(1)
}
