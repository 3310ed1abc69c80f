//! Traces of recorded days (document 02, request Two): whether the words are laid out, and a record as a
//! call. A trace may have any words, so places are added up in 64 bits, where no sum of them wraps.

use std::fmt::{self, Display, Formatter};
use std::ops::Range;

use crate::calls::Call;

pub use crate::layout::{
    COUNT_WORDS, DAYS_MAX, KIND_CLOCK as CLOCK, KIND_DELIVERY as DELIVERY, KIND_QUERY as QUERY,
    PAIR_WORDS, RECORD_WORDS,
};

/// The words of one record.
pub type Record = [u32; RECORD_WORDS];

/// Why words are no trace.
#[derive(Clone, Copy, Debug, PartialEq, Eq)]
pub struct Fault {
    /// The first word at which this shows.
    pub word: usize,
    /// The day that is at fault, where it is one.
    pub day: Option<usize>,
    /// What is wrong.
    pub why: Why,
}

/// What is wrong with a trace or with a day of it.
#[derive(Clone, Copy, Debug, PartialEq, Eq)]
pub enum Why {
    /// There are no words.
    Empty,
    /// The count of days is too high.
    Count(u32),
    /// The trace ends within the pairs, which end at the fault's word.
    Pairs,
    /// A word follows the last day.
    Follows,
    /// The day starts at the first of these, and the pairs or the day before end at the second.
    Offset(u32, usize),
    /// The day has so many words, which are no whole records.
    Length(u32),
    /// The day ends here, after the trace does.
    End(u64),
    /// A record of this kind, which is none.
    Kind(u32),
    /// This stands in a record where its call has no number.
    Rest(u32),
}

impl Display for Fault {
    fn fmt(&self, f: &mut Formatter<'_>) -> fmt::Result {
        let day = self.day.map_or(String::new(), |day| format!("day {day} "));
        let told = match self.why {
            Why::Empty => return write!(f, "there is no word, not even a count of days"),
            Why::Pairs => return write!(f, "the pairs end at word {}, after the trace", self.word),
            Why::Count(found) => format!("{found} days, at most {DAYS_MAX}"),
            Why::Follows => "it follows the last day".to_string(),
            Why::Offset(found, expected) => format!("starts at {found}, not {expected}"),
            Why::Length(found) => format!("has {found} words, no whole records"),
            Why::End(found) => format!("ends at {found}, after the trace"),
            Why::Kind(found) => format!("has a record of kind {found}"),
            Why::Rest(found) => format!("has a record with {found} in place of 0"),
        };
        write!(f, "word {}: {day}{told}", self.word)
    }
}

/// The words of each day, if the trace keeps its layout and every record of every day reads.
pub fn days(trace: &[u32]) -> Result<Vec<Range<usize>>, Fault> {
    let days = parts(trace)?;
    for (number, part) in days.iter().enumerate() {
        for start in part.clone().step_by(RECORD_WORDS) {
            if let Err(place) = call(&trace[start..start + RECORD_WORDS]) {
                let (word, day) = (start + place, Some(number));
                let why = if place == 0 { Why::Kind } else { Why::Rest };
                let why = why(trace[word]);
                return Err(Fault { word, day, why });
            }
        }
    }
    Ok(days)
}

/// The words of each day, whatever their records are.
pub fn parts(trace: &[u32]) -> Result<Vec<Range<usize>>, Fault> {
    let fault = |word, day, why| Err(Fault { word, day, why });
    let Some(&count) = trace.first() else {
        return fault(0, None, Why::Empty);
    };
    if count > DAYS_MAX {
        return fault(0, None, Why::Count(count));
    }
    let mut start = pairs_end(count as usize);
    if trace.len() < start {
        return fault(start, None, Why::Pairs);
    }
    let mut days = Vec::new();
    for day in 0..count as usize {
        let place = pair(day).start;
        let (offset, length) = (trace[place], trace[place + 1]);
        let end = start as u64 + u64::from(length);
        if u64::from(offset) != start as u64 {
            return fault(place, Some(day), Why::Offset(offset, start));
        }
        if !(length as usize).is_multiple_of(RECORD_WORDS) {
            return fault(place + 1, Some(day), Why::Length(length));
        }
        if end > trace.len() as u64 {
            return fault(place + 1, Some(day), Why::End(end));
        }
        days.push(start..end as usize);
        start = end as usize;
    }
    if start < trace.len() {
        return fault(start, None, Why::Follows);
    }
    Ok(days)
}

/// The call of a record, or the place of the word in it that makes it none.
pub fn call(record: &[u32]) -> Result<Call, usize> {
    let &[kind, first, second, third] = record else {
        panic!("a record has {RECORD_WORDS} words");
    };
    let (numbers, call) = match kind {
        CLOCK => (1, Call::Clock { clock: first }),
        DELIVERY => (3, Call::Delivery { grade: first, stamp: second, volume: third }),
        QUERY => (2, Call::Query { grade: first, window: second }),
        _ => return Err(0),
    };
    let rest = 1 + numbers..RECORD_WORDS;
    match rest.into_iter().find(|word| record[*word] != 0) {
        Some(word) => Err(word),
        None => Ok(call),
    }
}

/// The calls of a day that was found.
pub fn calls(day: &[u32]) -> impl ExactSizeIterator<Item = Call> + '_ {
    let call = |record| call(record).expect("a found day has records that read");
    day.chunks(RECORD_WORDS).map(call)
}

/// The record of a call; a make has none.
pub fn record(call: Call) -> Option<Record> {
    match call {
        Call::Make { .. } => None,
        Call::Clock { clock } => Some([CLOCK, clock, 0, 0]),
        Call::Delivery { grade, stamp, volume } => Some([DELIVERY, grade, stamp, volume]),
        Call::Query { grade, window } => Some([QUERY, grade, window, 0]),
    }
}

/// The words of a day's pair.
pub fn pair(day: usize) -> Range<usize> {
    pairs_end(day)..pairs_end(day + 1)
}

/// Where the pairs of so many days end, and the first day starts.
pub fn pairs_end(count: usize) -> usize {
    COUNT_WORDS + PAIR_WORDS * count
}

/// Days of any words, one after another behind their count and their pairs. It is a trace if they are
/// at most 64 and each is whole records that read.
pub fn lay_out<D: AsRef<[u32]>>(days: &[D]) -> Vec<u32> {
    let word = |number: usize| u32::try_from(number).expect("a trace of less than 2^32 words");
    let mut trace = vec![word(days.len())];
    let mut start = pairs_end(days.len());
    for day in days {
        let length = day.as_ref().len();
        trace.extend([word(start), word(length)]);
        start += length;
    }
    for day in days {
        trace.extend(day.as_ref());
    }
    trace
}
