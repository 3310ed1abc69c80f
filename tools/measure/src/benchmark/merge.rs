//! A merge beside a copy: two days whose clocks lie between one another, merged by the static library, and
//! their words copied to the output one day after the other. Days twice as long show whether the time grows
//! in step.

use std::hint::black_box;

use draw::random::Random;
use reference::merge::Named;
use reference::trace::{lay_out, pairs_end, CLOCK, DELIVERY, QUERY, RECORD_WORDS};

use super::table::{thousands, Form, Table};
use super::timing::{in_turns, time, Times};

/// Records of each day.
const RECORDS: usize = 100_000;

/// The time of twice the records is there for a record, and as it is beside that of the records.
const FORM: Form = Form {
    columns: &["copy", "merge", "merge of twice the records"],
    ratios: &[("merge / copy", 1, 0), ("time for twice the records / for the records", 3, 1)],
    digits: 2,
};

pub fn run(rounds: usize) -> Table {
    eprintln!("merging {rounds} times");
    let mut pairs = [RECORDS, 2 * RECORDS].map(Pair::new);
    let times = (0..=rounds).map(|round| measure(&mut pairs, round));
    let (name, targets) = ("merge of two days".to_string(), &[(0, 20.0), (1, 2.2)][..]);
    let records = thousands(RECORDS);
    let title = format!("Two days of {records} records each, merged. Nanoseconds for a record");
    let row = (name, targets, Times::new(times));
    Table::new(title, "", &FORM, vec![row])
}

/// The times of a copy, of a merge and of one of days twice as long, each coming first in every third round.
fn measure(pairs: &mut [Pair; 2], round: usize) -> Vec<f64> {
    let records = pairs[0].expected.len() / RECORD_WORDS;
    let mut times = in_turns(round, 3, |timed| {
        let pair = &mut pairs[timed / 2];
        pair.output.fill(u32::MAX);
        let work = if timed == 0 { Pair::copy } else { Pair::merge };
        let time = time(records, || work(pair));
        let is_merged = pair.output == pair.expected;
        assert_eq!(is_merged, timed != 0, "a merge and a copy differ");
        1e3 * time
    });
    times.insert(2, times[2] / 2.0);
    times
}

const IN_ORDER: &str = "two days in order and an output for them";

/// Two days, each the only one of a trace, and their merged day.
struct Pair {
    traces: [Vec<u32>; 2],
    expected: Vec<u32>,
    output: Vec<u32>,
}

impl Pair {
    /// Days of so many records. One has even clocks and the other odd ones, so that no clock is in both and
    /// they have one merged day.
    fn new(records: usize) -> Pair {
        let random = &mut Random::new(1);
        let traces = [0, 1].map(|clock| lay_out(&[day(random, clock, records)]));
        let output = vec![0; 2 * RECORD_WORDS * records];
        let (mut expected, day) = (output.clone(), 0);
        let days = traces.each_ref().map(|trace| Named { trace, day });
        reference::merge::merge(days, &mut expected).expect(IN_ORDER);
        Pair { traces, expected, output }
    }

    fn merge(&mut self) {
        let [first, second] = black_box(&self.traces);
        let merged = litres::merge(first, 0, second, 0, black_box(&mut self.output));
        merged.expect(IN_ORDER);
    }

    fn copy(&mut self) {
        let traces = black_box(&self.traces).each_ref();
        let [first, second] = traces.map(|trace| &trace[pairs_end(1)..]);
        let (start, end) = black_box(&mut self.output).split_at_mut(first.len());
        start.copy_from_slice(first);
        end.copy_from_slice(second);
    }
}

/// A day from this clock on: after each clock up to seven deliveries and questions, one of which in ten asks,
/// and how many is not to be foreseen. Its clocks stay even or odd.
fn day(random: &mut Random, mut clock: u32, records: usize) -> Vec<u32> {
    let mut day = Vec::new();
    while day.len() < records {
        day.push([CLOCK, clock, 0, 0]);
        for _ in 0..random.below(8) {
            day.push(match random.one_in(10) {
                true => [QUERY, 0, random.between(0, 3_600), 0],
                false => [DELIVERY, 0, clock, random.between(1, 600)],
            });
        }
        clock += 2 * random.between(1, 30);
    }
    day.truncate(records);
    day.concat()
}

/// A measurement compares the merge with the merged day.
#[test]
fn merges_are_right() {
    let mut pairs = [300, 600].map(Pair::new);
    assert!(pairs[0].traces.iter().all(|trace| trace.len() == 1_203));
    assert!(measure(&mut pairs, 0).iter().all(|time| *time > 0.0));
}
