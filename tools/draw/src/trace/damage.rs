//! Damage to a trace: words that no recorder would write. Some of it leaves the trace sound.

use reference::trace::{
    days, lay_out, pair, pairs_end, CLOCK, DAYS_MAX, DELIVERY, PAIR_WORDS, RECORD_WORDS,
};

use crate::damage::{any_word, changed};
use crate::random::Random;

/// A change of a sound trace, where it has what the change needs.
type Change = fn(&mut Random, &mut Vec<u32>);

/// Each kind of damage with its name.
pub const KINDS: [(&str, Change); 18] = [
    ("no words", |_, trace| trace.clear()),
    ("65 days", one_day_too_many),
    ("the count changed", |r, t| count_word(r, t)),
    ("an offset changed", |r, t| place_word(r, t, offset)),
    ("a length changed", |r, t| place_word(r, t, length)),
    ("a boundary moved", |r, t| moved_boundary(r, t)),
    ("ends right modulo 2^32 only", |r, t| wrapped_ends(r, t)),
    ("a day started elsewhere", |r, t| moved_start(r, t)),
    ("two days exchanged", |r, t| exchanged_days(r, t)),
    ("a pair copied", |r, t| copied_pair(r, t)),
    ("words too many", more_words),
    ("words missing", fewer_words),
    ("a day of broken records", broken_records),
    ("another kind", |r, t| other_kind(r, t)),
    ("a nonzero rest", |r, t| nonzero_rest(r, t)),
    ("a record moved by a word", |r, t| moved_record(r, t)),
    ("a word changed", |r, t| any_word(r, t)),
    ("random words", random_words),
];

/// Damages a trace in one way and names it.
pub fn damage(random: &mut Random, trace: &mut Vec<u32>) -> &'static str {
    loop {
        let (name, change) = random.pick(&KINDS);
        let mut other = trace.clone();
        change(random, &mut other);
        if other != *trace {
            *trace = other;
            return name;
        }
    }
}

fn offset(day: usize) -> usize {
    pair(day).start
}

fn length(day: usize) -> usize {
    pair(day).end - 1
}

fn any_day(random: &mut Random, trace: &[u32]) -> Option<usize> {
    let count = u64::from(trace[0]);
    (count > 0).then(|| random.below(count) as usize)
}

/// Two days, the earlier one first.
fn two_days(random: &mut Random, trace: &[u32]) -> Option<(usize, usize)> {
    let [one, other] = [any_day(random, trace)?, any_day(random, trace)?];
    (one != other).then_some((one.min(other), one.max(other)))
}

/// The first word of any record.
fn any_record(random: &mut Random, trace: &[u32]) -> Option<usize> {
    let start = pairs_end(trace[0] as usize);
    let records = (trace.len() - start) / RECORD_WORDS;
    (records > 0).then(|| start + RECORD_WORDS * random.below(records as u64) as usize)
}

/// Changes the words of the days and lays them out anew.
fn with_days(trace: &mut Vec<u32>, change: impl FnOnce(&mut Vec<Vec<u32>>)) {
    let parts = days(trace).expect("damage begins with a sound trace");
    let mut days = parts.into_iter().map(|day| trace[day].to_vec()).collect();
    change(&mut days);
    *trace = lay_out(&days);
}

/// Sound but for its count; the last day is empty or has a record.
fn one_day_too_many(random: &mut Random, trace: &mut Vec<u32>) {
    let last = [Vec::new(), vec![CLOCK, 0, 0, 0]];
    let last = &last[random.below(2) as usize];
    with_days(trace, |days| days.resize(DAYS_MAX as usize + 1, last.clone()));
}

fn count_word(random: &mut Random, trace: &mut [u32]) {
    let count = trace[0];
    trace[0] = match random.below(4) {
        0 => random.pick(&[DAYS_MAX + 1, DAYS_MAX, 255, 256, u32::MAX]),
        // Twice as many words are the same modulo 2^32.
        1 => count + (1 << 31),
        _ => changed(random, count),
    };
}

/// Another offset or length of a day: a record away, at an end of the trace or of the numbers.
fn place_word(random: &mut Random, trace: &mut [u32], place: fn(usize) -> usize) {
    let Some(day) = any_day(random, trace) else {
        return;
    };
    let (word, record) = (trace[place(day)], RECORD_WORDS as u32);
    trace[place(day)] = match random.below(6) {
        0 => word.wrapping_add(record),
        1 => word.wrapping_sub(record),
        2 => random.pick(&[0, trace.len() as u32, pairs_end(trace[0] as usize) as u32]),
        3 => random.pick(&[u32::MAX, u32::MAX - 3, 1 << 31, 1 << 30]),
        _ => changed(random, word),
    };
}

/// One day grows by so many words, a later one shrinks by as many and what lies between them moves, all
/// modulo 2^32.
fn shift(trace: &mut [u32], from: usize, to: usize, by: u32) {
    let add = |word: &mut u32, by: u32| *word = word.wrapping_add(by);
    add(&mut trace[length(from)], by);
    for day in from + 1..=to {
        add(&mut trace[offset(day)], by);
    }
    add(&mut trace[length(to)], by.wrapping_neg());
}

/// Where one day ends and the next starts is moved. By whole records the trace may stay sound; by single
/// words, two days are no longer whole records.
fn moved_boundary(random: &mut Random, trace: &mut [u32]) {
    if let Some((from, to)) = two_days(random, trace) {
        let by = random.between(1, 4);
        let by = random.pick(&[by, by.wrapping_neg(), 4]);
        shift(trace, from, to, by);
    }
}

/// Every day is whole records and, modulo 2^32, starts where the one before ends; the last one ends with the
/// trace. But before it a day ends far beyond the trace, or modulo 2^32 before its own start.
fn wrapped_ends(random: &mut Random, trace: &mut [u32]) {
    if let Some((from, to)) = two_days(random, trace) {
        let any = random.word() & !3;
        // Of a record more than the day has, so that modulo 2^32 it ends a record before its start.
        let back = trace[length(from)] + RECORD_WORDS as u32;
        let by = random.pick(&[1 << 31, 1 << 30, any, back.wrapping_neg()]);
        shift(trace, from, to, by);
    }
}

/// The day ends where it has to. It leaves a gap before it or overlaps the day before.
fn moved_start(random: &mut Random, trace: &mut [u32]) {
    if let Some(day) = any_day(random, trace) {
        let record = RECORD_WORDS as u32;
        let by = random.pick(&[record, record.wrapping_neg(), 1, 1 << 31]);
        trace[offset(day)] = trace[offset(day)].wrapping_add(by);
        trace[length(day)] = trace[length(day)].wrapping_sub(by);
    }
}

/// The pairs are no longer sorted by offset; each still names a day's words.
fn exchanged_days(random: &mut Random, trace: &mut [u32]) {
    if let Some((one, other)) = two_days(random, trace) {
        for word in 0..PAIR_WORDS {
            trace.swap(pair(one).start + word, pair(other).start + word);
        }
    }
}

/// Two days are the same words.
fn copied_pair(random: &mut Random, trace: &mut [u32]) {
    if let Some((one, other)) = two_days(random, trace) {
        let (from, to) = random.pick(&[(one, other), (other, one)]);
        trace.copy_within(pair(from), pair(to).start);
    }
}

fn more_words(random: &mut Random, trace: &mut Vec<u32>) {
    let kind = random.pick(&[0, CLOCK]);
    let more = random.pick(&[1, 1, 2, 3, RECORD_WORDS]);
    trace.push(kind);
    trace.resize(trace.len() + more - 1, 0);
}

fn fewer_words(random: &mut Random, trace: &mut Vec<u32>) {
    let any = random.below(trace.len() as u64) as usize;
    let fewer = random.pick(&[1, 1, 2, 3, RECORD_WORDS, any]);
    trace.truncate(trace.len().saturating_sub(fewer).max(1));
}

/// Laid out as it has to be, but a day has one to three words too many.
fn broken_records(random: &mut Random, trace: &mut Vec<u32>) {
    if let Some(day) = any_day(random, trace) {
        let more = random.between(1, RECORD_WORDS as u32 - 1) as usize;
        with_days(trace, |days| days[day].extend(vec![0; more]));
    }
}

fn other_kind(random: &mut Random, trace: &mut [u32]) {
    if let Some(record) = any_record(random, trace) {
        let kind = trace[record];
        let high = random.pick(&[1 << 8, 1 << 16, 1 << 31]);
        trace[record] = random.pick(&[0, 4, 4, 5, u32::MAX, kind + high]);
    }
}

fn nonzero_rest(random: &mut Random, trace: &mut [u32]) {
    let Some(record) = any_record(random, trace) else {
        return;
    };
    let any = random.word() | 1;
    let rest = match trace[record] {
        CLOCK => random.pick(&[2, 3]),
        DELIVERY => return,
        _ => 3,
    };
    trace[record + rest] = random.pick(&[1, any, 1 << 31, u32::MAX]);
}

/// A record starts a word late, as if records were counted from elsewhere.
fn moved_record(random: &mut Random, trace: &mut [u32]) {
    if let Some(record) = any_record(random, trace) {
        trace[record..record + RECORD_WORDS].rotate_right(1);
    }
}

/// Mostly few and small, so that a count and some pairs can fit by chance.
fn random_words(random: &mut Random, trace: &mut Vec<u32>) {
    let length = random.between(1, 40);
    let is_small = !random.one_in(4);
    let word = |_| match is_small {
        true => random.between(0, 9),
        false => random.word(),
    };
    *trace = (0..length).map(word).collect();
}
