//! A trace in lines that a person can read.

use reference::protocol::line;
use reference::trace::{calls, days};

/// The words of bytes, the low one of each first; the error says why they are none.
pub fn words(bytes: &[u8]) -> Result<Vec<u32>, String> {
    let (whole, rest) = bytes.as_chunks();
    if !rest.is_empty() {
        return Err(format!("{} bytes are no whole 32-bit words", bytes.len()));
    }
    Ok(whole.iter().map(|word| u32::from_le_bytes(*word)).collect())
}

/// Each day's number, start and words, and its records as lines of the bench protocol; the error says
/// where the layout is broken.
pub fn print(trace: &[u32]) -> Result<String, String> {
    let days = days(trace).map_err(|fault| fault.to_string())?;
    let mut text = format!("days {}, words {}\n", days.len(), trace.len());
    for (number, part) in days.into_iter().enumerate() {
        let (start, words) = (part.start, part.len());
        text += &format!("day {number}: start {start}, words {words}\n");
        text.extend(calls(&trace[part]).map(|call| line(call) + "\n"));
    }
    Ok(text)
}
