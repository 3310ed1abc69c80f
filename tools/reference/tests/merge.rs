//! Merges: the refusals and their order, outputs that are a merged day and outputs that are none, and the
//! clocks that records meet.

mod books;

use books::{feed, made};
use draw::shapes::EXAMPLE;
use reference::merge::{
    home_clocks, judge, length, merge, merged_clocks, met_clocks, sources, Disorder, Named,
};
use reference::shape::Shape;
use reference::trace::{lay_out, Record};

const MOST: u32 = Shape::CLOCK_MAX;

fn c(clock: u32) -> Record {
    [1, clock, 0, 0]
}

fn d(stamp: u32, volume: u32) -> Record {
    [2, 0, stamp, volume]
}

fn q(window: u32) -> Record {
    [3, 0, window, 0]
}

/// Whether the output is a merged day of these two, which does not depend on which of them is the first.
fn merges(first: &[Record], second: &[Record], output: &[Record]) -> bool {
    let [first, second, output] = [first, second, output].map(|records| records.concat());
    let [one, other] = [[&first, &second], [&second, &first]]
        .map(|days| sources(days.map(|day| &day[..]), &output).is_some());
    assert_eq!(one, other);
    one
}

/// Clocks 1 and 3, and clock 2, each with records after it.
const ODD: [Record; 4] = [[1, 1, 0, 0], [2, 0, 1, 5], [1, 3, 0, 0], [3, 0, 2, 0]];
const EVEN: [Record; 2] = [[1, 2, 0, 0], [2, 0, 0, 7]];

#[test]
fn one_outcome_where_no_clock_is_in_both_days() {
    let [one, five, three, asked] = ODD;
    let [two, seven] = EVEN;
    let right = [one, five, two, seven, three, asked];
    assert!(merges(&ODD, &EVEN, &right));
    let traces = [lay_out(&[ODD.concat()]), lay_out(&[EVEN.concat()])];
    let mut output = [0; 24];
    assert_eq!(merge(traces.each_ref().map(|trace| Named { trace, day: 0 }), &mut output), Ok(()));
    assert_eq!(output[..], right.concat());
    // A delivery that is out of its clock, though every clock record is in order.
    assert!(!merges(&ODD, &EVEN, &[one, two, five, seven, three, asked]));
    assert!(!merges(&ODD, &EVEN, &[one, five, two, three, seven, asked]));
    // A clock that falls.
    assert!(!merges(&ODD, &EVEN, &[one, five, three, asked, two, seven]));
    // The order of a day is not kept.
    assert!(!merges(&ODD, &EVEN, &[five, one, two, seven, three, asked]));
}

#[test]
fn every_record_once() {
    let [one, five, three, asked] = ODD;
    let [two, seven] = EVEN;
    let right = [one, five, two, seven, three, asked];
    for place in 0..right.len() {
        let mut dropped = right.to_vec();
        dropped.remove(place);
        assert!(!merges(&ODD, &EVEN, &dropped), "{place} dropped");
        let mut twice = right.to_vec();
        twice.insert(place, right[place]);
        assert!(!merges(&ODD, &EVEN, &twice), "{place} twice");
        for other in 0..right.len() {
            let mut wrong = right;
            wrong[place] = right[other];
            let is_right = wrong == right;
            assert_eq!(merges(&ODD, &EVEN, &wrong), is_right, "{place}, {other}");
        }
        for word in 0..4 {
            let mut wrong = right;
            wrong[place][word] ^= 1;
            assert!(!merges(&ODD, &EVEN, &wrong), "word {word} of {place}");
        }
    }
}

/// Every output of a few records beside a judge that tries each way to share them out. Clocks and records stand
/// in both days, so that to take each record from the same day while it fits leads astray.
#[test]
fn beside_every_way_to_share_the_records() {
    let [a, b] = [d(1, 1), d(2, 2)];
    let days: [&[Record]; 8] = [
        &[],
        &[c(4), a],
        &[c(4), c(4)],
        &[c(4), a, c(5), a],
        &[c(5), a, b],
        &[c(4), a, b, a],
        &[c(4), a, b],
        &[c(4), a, a, b],
    ];
    let any = [c(4), c(5), a, b];
    let mut met = [0, 0];
    for first in days {
        for second in days {
            let ways = every_way(first, second);
            let length = first.len() + second.len();
            if length > 7 {
                continue;
            }
            for number in 0..4usize.pow(length as u32) {
                let output: Vec<Record> =
                    (0..length).map(|place| any[(number >> (2 * place)) & 3]).collect();
                let expected = ways.contains(&output);
                assert_eq!(merges(first, second, &output), expected, "{output:?}");
                met[usize::from(expected)] += 1;
            }
        }
    }
    assert!(met.iter().all(|count| *count > 50), "{met:?}");
}

/// The merged days, by the words of the request: of all ways to set one day into the other those in which
/// clocks do not fall.
fn every_way(first: &[Record], second: &[Record]) -> Vec<Vec<Record>> {
    let length = first.len() + second.len();
    let with_clocks = |day: &[Record]| {
        let clocks = home_clocks(&day.concat()).expect("a day in order");
        clocks.into_iter().zip(day.to_vec()).collect::<Vec<_>>()
    };
    let [first, second] = [first, second].map(with_clocks);
    let choices = (0..1u32 << length).filter(|chosen| chosen.count_ones() as usize == second.len());
    let ways = choices.map(|chosen| {
        let mut days = [first.iter(), second.iter()];
        let day = |place: usize| ((chosen >> place) & 1) as usize;
        (0..length)
            .map(|place| *days[day(place)].next().expect("as many as were chosen"))
            .collect::<Vec<_>>()
    });
    ways.filter(|way| way.is_sorted_by_key(|(clock, _)| *clock))
        .map(|way| way.into_iter().map(|(_, record)| record).collect())
        .collect()
}

#[test]
fn empty_days() {
    assert!(merges(&[], &[], &[]));
    assert!(merges(&ODD, &[], &ODD));
    assert!(merges(&[], &EVEN, &EVEN));
    assert!(!merges(&[], &[], &[c(1)]));
    assert!(!merges(&ODD, &[], &ODD[..3]));
    assert!(!merges(&ODD, &[], &[]));
}

#[test]
fn clocks_at_home() {
    let clocks = |records: &[Record]| home_clocks(&records.concat());
    assert_eq!(clocks(&[]), Ok(vec![]));
    assert_eq!(clocks(&ODD), Ok(vec![1, 1, 3, 3]));
    let most = clocks(&[c(0), c(0), q(1), c(MOST)]);
    assert_eq!(most, Ok(vec![0, 0, 0, MOST]));
    assert_eq!(clocks(&[d(0, 1), c(3)]), Err(Disorder::Opening));
    assert_eq!(clocks(&[q(0)]), Err(Disorder::Opening));
    assert_eq!(clocks(&[c(3), d(0, 1), c(2)]), Err(Disorder::Fall));
    assert_eq!(clocks(&[c(3), c(4), c(3)]), Err(Disorder::Fall));
    assert_eq!(clocks(&[c(MOST + 1)]), Err(Disorder::Limit));
    assert_eq!(clocks(&[c(3), c(u32::MAX)]), Err(Disorder::Limit));
}

/// The number of a merge: day 1 of a trace of two days, of which these records are day 1, with day 1 of
/// another.
fn number(first: &[Record], second: &[Record], room: usize) -> u32 {
    // Only the named days count, so the other one is out of order.
    let trace = |day: &[Record]| lay_out(&[[q(1), c(3)].concat(), day.concat()]);
    let [first, second] = [first, second].map(trace);
    let named = [&first, &second].map(|trace| Named { trace, day: 1 });
    judge(named, room).map_or_else(|number| number, |_| 0)
}

#[test]
fn a_day_out_of_order_on_either_side() {
    assert_eq!(number(&ODD, &EVEN, 24), 0);
    assert_eq!(number(&[], &[], 0), 0);
    assert_eq!(number(&ODD, &[], 16), 0);
    assert_eq!(number(&ODD, &ODD, 32), 0);
    assert_eq!(number(&[c(3), c(3)], &[c(MOST)], 12), 0);
    for day in [&[d(0, 1)][..], &[c(3), c(2)], &[c(MOST + 1)]] {
        let room = 4 * day.len();
        assert_eq!(number(day, &[], room), 16, "{day:?}");
        assert_eq!(number(&[], day, room), 16, "{day:?}");
        assert_eq!(number(day, day, 2 * room), 16, "{day:?}");
    }
}

#[test]
fn an_output_of_another_length() {
    for room in (0..40).filter(|room| *room != 24) {
        assert_eq!(number(&ODD, &EVEN, room), 17, "{room}");
    }
    assert_eq!(number(&[], &[], 1), 17);
}

/// Each refusal is looked for on both sides before the next one.
#[test]
fn the_order_of_refusals() {
    let sound = lay_out(&[ODD.concat()]);
    let mut broken = sound.clone();
    *broken.last_mut().unwrap() = 1;
    let disorder = lay_out(&[d(0, 1).to_vec()]);
    let traces = [(&broken, 0, 13), (&sound, 1, 14), (&disorder, 0, 16), (&sound, 0, 17)];
    for (first, first_day, one) in traces {
        for (second, second_day, other) in traces {
            let named = [(first, first_day), (second, second_day)];
            let named = named.map(|(trace, day)| Named { trace, day });
            // No two of these days have a word together, so the length is wrong everywhere.
            assert_eq!(judge(named, 1), Err(one.min(other)), "{one}, {other}");
        }
    }
}

#[test]
fn found_days_are_parts_of_the_traces() {
    let trace = lay_out(&[ODD.concat(), EVEN.concat()]);
    let named = [0, 1].map(|day| Named { trace: &trace, day });
    let days = judge(named, 24).unwrap();
    assert!(std::ptr::eq(days[0], &trace[5..21]));
    assert!(std::ptr::eq(days[1], &trace[21..]));
    assert_eq!(length(days), 24);
}

/// On a book that is not past the first clock each record meets the clock that it had at home. On another
/// book, and in another order, it need not.
#[test]
fn clocks_that_records_meet() {
    let [one, five, three, asked] = ODD;
    let [two, seven] = EVEN;
    let days = [ODD.concat(), EVEN.concat()];
    let days = days.each_ref().map(|day| &day[..]);
    let merged = [one, five, two, seven, three, asked].concat();
    let home = merged_clocks(days, &merged).unwrap();
    assert_eq!(home, [1, 1, 2, 2, 3, 3]);
    let book = |at: u32| {
        let mut book = made(EXAMPLE);
        feed(&mut book, at, &[]);
        book
    };
    assert_eq!(met_clocks(&mut book(0), &merged), home);
    assert_eq!(met_clocks(&mut book(1), &merged), home);
    assert_eq!(met_clocks(&mut book(2), &merged), [2, 2, 2, 2, 3, 3]);
    let wrong = [one, two, five, seven, three, asked].concat();
    assert_eq!(merged_clocks(days, &wrong), None);
    assert_eq!(met_clocks(&mut book(0), &wrong), [1, 2, 2, 2, 3, 3]);
}
