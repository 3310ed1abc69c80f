//! From two days to a trace of the merged one.

use litres::{find_day, Refused};
use reference::merge::{home_clocks, Named};
use reference::refusal::ORDER;
use reference::trace::lay_out;

use crate::make::check_lengths;

/// A trace whose only day is these two merged, each with the name of its file; the error says why there is
/// none.
pub fn merge(days: [(&str, Named); 2]) -> Result<Vec<u32>, String> {
    let [first, second] = days.map(|(_, day)| day);
    // Where a day is not found, the merge itself says why: it looks at both traces in its own order.
    let length = |Named { trace, day }| find_day(trace, day).map_or(0, <[u32]>::len);
    let length = length(first).saturating_add(length(second));
    check_lengths(&[length])?;
    let mut day = vec![0; length];
    let merged = litres::merge(first.trace, first.day, second.trace, second.day, &mut day);
    merged.map_err(|refused| told(days, refused))?;
    Ok(lay_out(&[day]))
}

/// A line for each day for which the merge is refused. Its number alone does not tell which of the two it is.
fn told(days: [(&str, Named); 2], refused: Refused) -> String {
    let concerned = |day: Named| match day.find() {
        Err(number) => number == refused.0,
        Ok(day) => refused.0 == ORDER && home_clocks(day).is_err(),
    };
    let reason = format!("refused {}, {refused}", refused.0);
    let concerned = days.iter().filter(|(_, day)| concerned(*day));
    let line = |(file, day): &(&str, Named)| format!("{file}, day {}: {reason}", day.day);
    let lines: Vec<String> = concerned.map(line).collect();
    match lines[..] {
        [] => reason,
        _ => lines.join("\n"),
    }
}
