//! Random traces. The days of a sound one are drawn for a book, each for the words that the day before
//! would leave, so that most records are accepted where all days are replayed in turn.

pub mod damage;
pub mod met;

use reference::calls::perform;
use reference::replay::ANSWER_WORDS;
use reference::shape::Shape;
use reference::trace::{self, lay_out, Record, RECORD_WORDS};

use crate::calls::Source;
use crate::pace::Pace;
use crate::random::Random;
use crate::shapes::Makes;
use crate::view::Words;

/// An empty day, then one that makes document 01's P3 and asks P4's question.
pub const EXAMPLE: [u32; 25] =
    [2, 5, 0, 5, 20, 1, 3, 0, 0, 2, 0, 0, 3, 2, 0, 3, 1, 2, 0, 1, 1, 3, 0, 2, 0];

/// Each form of a sound trace, with its fewest and its most days.
pub const FORMS: [(&str, u32, u32); 5] = [
    ("no day", 0, 0),
    ("one day", 1, 1),
    ("two to six days", 2, 6),
    ("a week", 7, 7),
    ("64 days", 64, 64),
];

/// A book with more words gets few records, since the second program reads all of it for each.
const LONG_BOOK: usize = 4_000;

/// A trace and how it was drawn.
pub struct Drawn {
    /// The form of a sound trace, or the damage done to it.
    pub kind: &'static str,
    /// Whether it was damaged. Some damage leaves a trace sound.
    pub damaged: bool,
    /// All its words.
    pub words: Vec<u32>,
}

impl Drawn {
    /// A trace for a book of this shape, damaged as often as not.
    pub fn draw(random: &mut Random, shape: Shape, book: &[u32]) -> Drawn {
        let mut drawn = Drawn::sound(random, shape, book);
        if random.one_in(2) {
            drawn.kind = damage::damage(random, &mut drawn.words);
            drawn.damaged = true;
        }
        drawn
    }

    /// A sound trace for a book of this shape, which has as many words as the shape needs.
    pub fn sound(random: &mut Random, shape: Shape, book: &[u32]) -> Drawn {
        let (kind, fewest, most) = random.pick(&FORMS);
        let count = random.between(fewest, most);
        Drawn { kind, damaged: false, words: lay_out(&days(random, shape, book, count)) }
    }

    /// How many days the trace says it has.
    pub fn count(&self) -> u32 {
        self.words.first().copied().unwrap_or(0)
    }
}

/// The words of so many days. One in four is empty.
fn days(random: &mut Random, shape: Shape, book: &[u32], count: u32) -> Vec<Vec<u32>> {
    let most = match count {
        _ if book.len() > LONG_BOOK => 2,
        0..=1 => 24,
        2..=7 => 8,
        _ => 2,
    };
    let mut writer = Writer::new(random, shape, book);
    let day = |_| match writer.source.random.below(4) {
        0 => Vec::new(),
        _ => writer.day(most),
    };
    (0..count).map(day).collect()
}

/// Draws records for a book, and performs them on a copy of its words.
struct Writer {
    source: Source,
    shape: Shape,
    book: Vec<u32>,
}

impl Writer {
    fn new(random: &mut Random, shape: Shape, book: &[u32]) -> Writer {
        let pace = match random.one_in(2) {
            true => Pace::growing(random),
            false => Pace::probing(random),
        };
        Writer {
            source: Source { random: Random::new(random.bits()), pace, makes: Makes::Same },
            shape,
            book: book.to_vec(),
        }
    }

    /// At least one record and at most so many.
    fn day(&mut self, most: u64) -> Vec<u32> {
        let records = 1 + self.source.random.below(most);
        (0..records).flat_map(|_| self.record()).collect()
    }

    /// Any call but a make, which no record can be; rarely one of any numbers.
    fn record(&mut self) -> Record {
        let view = Words::new(self.shape, &self.book);
        let record = loop {
            if let Some(record) = trace::record(self.source.call(&view)) {
                break record;
            }
        };
        let record = rarely_any_numbers(&mut self.source.random, record);
        let call = trace::call(&record).expect("the record of a call");
        // Refused records are part of a day.
        let _ = perform(&mut self.book, call);
        record
    }
}

/// The record, or rarely one with other numbers where it has numbers.
pub(crate) fn rarely_any_numbers(random: &mut Random, record: Record) -> Record {
    if !random.one_in(40) {
        return record;
    }
    let mut other = record;
    for place in 1..RECORD_WORDS {
        let mut tried = other;
        // Where the record has no number, only a 0 reads.
        tried[place] = random.word();
        if trace::call(&tried).is_ok() {
            other = tried;
        }
    }
    other
}

/// How many answer words a replay gets: mostly as many as so many records need, else about as many, as
/// many as there are records, far more or none.
pub fn room(random: &mut Random, records: usize) -> usize {
    let needed = ANSWER_WORDS * records;
    match random.below(16) {
        0 => 0,
        1..=2 => needed.saturating_sub(1),
        3 => needed.saturating_sub(random.between(2, 5) as usize),
        4 => records,
        5 => random.below(needed as u64 + 1) as usize,
        6..=7 => needed + 1,
        8..=9 => needed + random.between(2, 9) as usize,
        _ => needed,
    }
}

/// Which day is asked for: mostly one that the trace has, else one next to the last or far beyond it.
pub fn day(random: &mut Random, count: u32) -> u32 {
    match random.below(12) {
        0 => count,
        1 => count.wrapping_add(1),
        2 => {
            let any = random.word();
            random.pick(&[63, 64, 65, 1 << 31, u32::MAX, any])
        }
        _ => random.below(u64::from(count.clamp(1, trace::DAYS_MAX))) as u32,
    }
}

/// How many records a day has, whether they read or not. Where there is no such day it is as many as the
/// last one has, so that a replay that is refused for another reason can lack room too. It is none where
/// the days are not laid out.
pub fn records(trace: &[u32], day: u32) -> usize {
    let parts = trace::parts(trace).unwrap_or_default();
    let part = parts.get(day as usize).or(parts.last());
    part.map_or(0, |part| part.len() / RECORD_WORDS)
}
