//! The kinds of what a run meets: that each is named for what it is, above all those that come beside others.
//! Whether a long run meets all of them, and no other, is told by the tallies of the comparisons.

use std::collections::BTreeSet;

use draw::shapes::{within, Numbers, EXAMPLE};
use draw::{edges, grounds, merge, trace};
use reference::calls::{clock, deliver, make, perform, Answer, Call, Reply};
use reference::ground::ground;
use reference::merge::Named;
use reference::replay::ANSWER_WORDS;
use reference::shape::Shape;
use reference::trace::{lay_out, Record};

const ACCEPTED: Reply = Ok(Answer::Splits(0));
/// Intervals of eight ticks.
const EIGHT: Numbers = [3, 2, 4, 1];
/// The deliveries of document 01's P1 to P7.
const P7: [(u32, u32); 5] = [(0, 3), (3, 1), (1, 1), (1, 1), (2, 2)];

/// A book at this clock after deliveries of (stamp, volume).
fn grown(numbers: Numbers, now: u32, deliveries: &[(u32, u32)]) -> Vec<u32> {
    let [k, n, m, g] = numbers;
    let mut book = vec![0; within(numbers).book_length()];
    make(&mut book, k, n, m, g).unwrap();
    clock(&mut book, now).unwrap();
    for &(stamp, volume) in deliveries {
        deliver(&mut book, 0, stamp, volume).unwrap();
    }
    book
}

fn question(window: u32) -> Call {
    Call::Query { grade: 0, window }
}

#[test]
fn every_kind_has_a_name_of_its_own() {
    let lists =
        [edges::all(), edges::all_telling(), grounds::all(), merge::met::all(), trace::met::all()];
    // So that no kind is lost together with its condition.
    for (all, count) in lists.into_iter().zip([59, 63, 12, 51, 46]) {
        let names: BTreeSet<&String> = all.iter().collect();
        assert_eq!((names.len(), all.len()), (count, count), "{all:?}");
    }
}

#[test]
fn edges_of_questions() {
    let both = "window clock at clock 2^k, window 2^k at clock 2^k";
    for (clock, window, kinds) in [
        (15, 0, "window 0 at clock j 2^k - 1"),
        (16, 1, "window 1 at clock j 2^k"),
        (17, 7, "window 2^k - 1 at clock j 2^k + 1"),
        (9, 8, "window 2^k at clock 2^k + 1"),
        (4, 5, "window clock + 1 at clock below 2^k - 1"),
        (8, 8, both),
        (15, 2, ""),
        (14, 0, ""),
        (18, 8, ""),
        (4, 6, ""),
    ] {
        let [accepted, refused] = [Ok(Answer::Sum(7)), Err(3)]
            .map(|reply| edges::kinds(within(EIGHT), clock, question(window), reply).join(", "));
        assert_eq!([&accepted[..], &refused], [kinds, ""], "{clock} {window}");
    }
}

#[test]
fn edges_of_deliveries() {
    for (clock, stamp, reply, kind) in [
        (16, 9, ACCEPTED, "oldest stamp at clock j 2^k"),
        (16, 8, Err(9), "stamp before the oldest at clock j 2^k"),
        (7, 0, ACCEPTED, "oldest stamp at clock 2^k - 1"),
        (8, 0, Err(9), "stamp before the oldest at clock 2^k"),
        (8, 1, ACCEPTED, "oldest stamp at clock 2^k"),
        (16, 9, Err(12), ""),
        (16, 8, Err(11), ""),
        (16, 7, Err(9), ""),
        (16, 10, ACCEPTED, ""),
        (14, 7, ACCEPTED, ""),
        (14, 6, Err(9), ""),
    ] {
        let (grade, volume) = (0, 1);
        let call = Call::Delivery { grade, stamp, volume };
        let found = edges::kinds(within(EIGHT), clock, call, reply);
        assert_eq!(found.concat(), kind, "{clock} {stamp}");
    }
}

/// P7 has the sums 1, 3, 4 and 8 for the windows 1 to 4. Of a book without deliveries no window tells anything.
#[test]
fn questions_that_tell_a_tick() {
    let mut p7 = grown(EXAMPLE, 3, &P7);
    let mut empty = grown(EXAMPLE, 3, &[]);
    let found = |book: &mut [u32], window| {
        let reply = perform(book, question(window));
        let told = edges::telling(book, question(window), reply).join(", ");
        told.replace(" at clock 2^k - 1, told from a tick ", ": ")
    };
    let three =
        "window clock: less, window 2^k - 1: less, window clock: more, window 2^k - 1: more";
    let four = "window clock + 1: less, window 2^k: less";
    let zero = "window 0: more";
    for (window, told) in [(0, zero), (3, three), (4, four), (2, ""), (5, "")] {
        assert_eq!(found(&mut p7, window), told, "{window}");
        assert_eq!(found(&mut empty, window), "", "{window}");
    }
}

/// A tick further the longest window opens in the interval before. In the other two books F rises and falls
/// from one level to the next.
#[test]
fn kinds_of_grounds() {
    let units = |stamps: &[u32]| stamps.iter().map(|stamp| (*stamp, 1)).collect::<Vec<_>>();
    let p7 = grown(EXAMPLE, 3, &P7);
    let mut further = p7.clone();
    clock(&mut further, 4).unwrap();
    let rising = grown([2, 2, 3, 1], 3, &units(&[2, 2, 0, 0, 2, 3]));
    let falling = grown([3, 2, 3, 1], 7, &units(&[5, 7, 7, 7, 7, 6, 7]));
    let before = "a level above 1, a level above 0 in the interval before";
    let lost = "level 0, a coarser level that has lost the opening";
    let higher = "a level above 1, a finer level with an F above the next finer one's";
    for (book, window, kinds) in [
        (&p7, 0, "window 0"),
        (&p7, 2, "level 0"),
        (&p7, 3, "a level above 1"),
        (&further, 4, before),
        (&further, 3, "level 0"),
        (&grown(EXAMPLE, 3, &P7[..3]), 4, "level 1"),
        (&rising, 3, lost),
        (&rising, 4, "a level above 1"),
        (&falling, 8, higher),
        // Level 1 serves this one, and F of level 0 is the only finer one.
        (&falling, 4, "level 1"),
    ] {
        let found = grounds::kinds(book, 0, window, ground(book, 0, window));
        assert_eq!(found.join(", "), kinds, "window {window}");
    }
}

fn c(clock: u32) -> Record {
    [1, clock, 0, 0]
}

const MOST: u32 = Shape::CLOCK_MAX;
const Q: Record = [3, 0, 1, 0];

type Day<'a> = &'a [Record];

/// The kinds of a merge of two days, each the only one of its trace, into so many words more or less than
/// they have.
fn merged(first: Day, second: Day, more: isize) -> String {
    let [first, second] = [first, second].map(|day| lay_out(&[day.concat()]));
    let room = (first.len() + second.len() - 6).saturating_add_signed(more);
    let named = [&first, &second].map(|trace| Named { trace, day: 0 });
    merge::met::kinds(named, room).join(", ")
}

#[test]
fn kinds_of_accepted_merges() {
    let at_once = "days at the same time";
    let same = "days at the same time, an equal clock in both days, \
                the same record at an equal clock in both days";
    let before = "the first day before the second";
    let twice = "the first day before the second, a clock set twice in a day";
    let limit = "the second day before the first, a clock at the limit";
    let rows: [(Day, Day, &str); 7] = [
        (&[c(1), c(2)], &[c(3)], before),
        (&[c(MOST)], &[c(3)], limit),
        (&[c(1), c(3)], &[c(2), Q], at_once),
        // The same question, but never at the same clock.
        (&[c(1), c(3), Q], &[c(2), Q, c(4), Q], at_once),
        (&[c(1), c(3)], &[c(1), Q], same),
        (&[c(1), Q, c(3)], &[c(3)], same),
        (&[c(2), c(2)], &[c(3)], twice),
    ];
    for (first, second, kinds) in rows {
        let expected = format!("two days of records, {kinds}");
        assert_eq!(merged(first, second, 0), expected);
    }
    let trace = lay_out(&[c(2).to_vec(), Q.to_vec(), vec![]]);
    for (days, room, kinds) in [
        ([0, 2], 4, "another day out of order, a trace with itself"),
        ([0, 0], 8, "a trace with itself, a day with itself"),
        ([2, 2], 0, "another day out of order, a trace with itself"),
        ([3, 1], 8, "14 by the first, 16 by the second"),
    ] {
        let named = days.map(|day| Named { trace: &trace, day });
        let found = merge::met::kinds(named, room).join(", ");
        assert!(found.contains(kinds), "{found}");
    }
}

#[test]
fn kinds_of_refused_merges() {
    let good: Day = &[c(2), Q];
    let broken = [4, 0, 0, 0];
    let first = "16 by the first, 0 by the second";
    let second = "0 by the first, 16 by the second";
    let last = "the last record alone out of order";
    let opens = "the first day opens without a clock";
    let falls = "the first day has a clock that falls";
    let past = "the second day has a clock past the limit";
    let fall = "a clock that falls by one";
    let limit = "a clock past the limit by one";
    let longer = "16, and another length";
    let unsound = "13 by the first, 16 by the second";
    let rows: [(Day, Day, isize, &[&str]); 8] = [
        (&[Q], good, 0, &[first, opens, last]),
        (&[Q, c(2)], good, 0, &[first, opens]),
        (&[c(5), c(4)], good, 0, &[first, falls, last, fall]),
        (&[c(5), c(3), Q], good, 0, &[first, falls]),
        (good, &[c(MOST + 1)], 0, &[second, past, last, limit]),
        (good, &[c(u32::MAX), Q], 1, &[second, longer, past]),
        (&[broken], &[Q], -1, &[unsound, "13, and another length"]),
        (&[c(2)], &[broken], 0, &["0 by the first, 13 by the second"]),
    ];
    for (first, second, more, kinds) in rows {
        assert_eq!(merged(first, second, more), kinds.join(", "));
    }
}

/// So many answer words are needed for the two records of the replayed day.
const NEEDED: usize = 2 * ANSWER_WORDS;

/// Replays of an empty day or of the two records after it, once a word was set.
#[test]
fn kinds_of_replays() {
    let found = "the last day, a day after an empty one, as many words as needed";
    let end = "an end in an earlier day, no trace, no such day";
    let kind = "a kind in the day asked for";
    for (set, day, room, kinds) in [
        (None, 0, 0, "the first day, empty day, no room"),
        (None, 1, NEEDED, found),
        (None, 3, NEEDED, "day = count + 1"),
        (None, 3, NEEDED - 1, "day = count + 1, no such day, no room"),
        (Some((4, 12)), 2, 0, end),
        (Some((9, 0)), 1, NEEDED, kind),
        (Some((9, 0)), 1, NEEDED - 1, &format!("{kind}, no trace, no room")),
        // An empty day needs no room, and one that is not laid out has no need that could be told.
        (Some((9, 0)), 0, 0, "a kind in a later day"),
        (Some((3, 9)), 1, 0, "an offset in the day asked for"),
    ] {
        let mut trace = [2, 5, 0, 5, 8, 1, 3, 0, 0, 3, 0, 2, 0];
        if let Some((word, value)) = set {
            trace[word] = value;
        }
        let met = trace::met::kinds(&trace, day, room).join(", ");
        assert_eq!(met, kinds);
    }
}
