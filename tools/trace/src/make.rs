//! From lines of the bench protocol to a trace.

use reference::protocol::parse;
use reference::trace::{lay_out, pairs_end, record, DAYS_MAX};

/// The trace of these days, each a name and its lines; the error names the day and the line.
pub fn make(days: &[(String, Vec<u8>)]) -> Result<Vec<u32>, String> {
    if days.len() > DAYS_MAX as usize {
        return Err(format!("{} days, at most {DAYS_MAX}", days.len()));
    }
    let mut read = Vec::new();
    for (name, text) in days {
        read.push(day(text).map_err(|trouble| format!("{name}, {trouble}"))?);
    }
    let lengths: Vec<usize> = read.iter().map(Vec::len).collect();
    check_lengths(&lengths)?;
    Ok(lay_out(&read))
}

/// Whether days of so many words make a trace of less than 2^32, since the pairs have 32 bits for a place.
pub fn check_lengths(days: &[usize]) -> Result<(), String> {
    let end = |start: usize, day: &usize| start.saturating_add(*day);
    let words = days.iter().fold(pairs_end(days.len()), end);
    match u32::try_from(words) {
        Ok(_) => Ok(()),
        Err(_) => Err(format!("{words} words, at most {}", u32::MAX)),
    }
}

/// The records of a day's lines. The last newline may be missing.
fn day(text: &[u8]) -> Result<Vec<u32>, String> {
    let mut words = Vec::new();
    for (number, line) in (1..).zip(text.split_inclusive(|byte| *byte == b'\n')) {
        let line = line.strip_suffix(b"\n").unwrap_or(line);
        let call = parse(line).ok_or(format!("line {number}: no line of the bench protocol"))?;
        let record = record(call).ok_or(format!("line {number}: a trace records no make"))?;
        words.extend(record);
    }
    Ok(words)
}

/// The bytes of words, the low one of each first.
pub fn bytes(words: &[u32]) -> Vec<u8> {
    words.iter().flat_map(|word| word.to_le_bytes()).collect()
}

/// Days that are too long for a trace. Only their lengths are tried, not so many words.
#[test]
fn places_have_32_bits() {
    let most = u32::MAX as usize;
    // The count and a pair for each day are words as well.
    for (days, words) in [
        (&[][..], 1),
        (&[most - 3], most),
        (&[most - 2], most + 1),
        (&[most - 9, 4], most),
        (&[most - 9, 8], most + 4),
        (&[usize::MAX, 4], usize::MAX),
    ] {
        let trouble = format!("{words} words, at most 4294967295");
        let expected = if words > most { Err(trouble) } else { Ok(()) };
        assert_eq!(check_lengths(days), expected);
    }
}
